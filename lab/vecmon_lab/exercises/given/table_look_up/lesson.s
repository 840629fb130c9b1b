## Pairs change places, and squares are looked up
# Eight numbers, 0 to 7: exchange the two of each pair, and then replace each by its square, from a table.

        .data
numbers: .word 1, 0, 3, 7, 5, 2, 6, 4
squares: .word 0, 1, 4, 9, 16, 25, 36, 49

        .text
        la a0, numbers
        la a1, squares
        vsetivli zero, 8, e32, m1, ta, ma
        vle32.v v8, (a0)
        vle32.v v9, (a1)
# `vid.v` gives each element its own index: 0, 1, 2 and so on.
        vid.v v10
# With the lowest bit inverted these are 1, 0, 3, 2 and so on: the index of the other element of each pair.
        vxor.vi v10, v10, 1
# A gather takes for each element the element of `v8` whose index is in `v10`.
        vrgather.vv v11, v8, v10
# A look-up is a gather too: the table is the source, and the numbers are the indices.
        vrgather.vv v12, v9, v11
# An index that is too large for the group gives 0: there is no element 100.
        li t0, 100
        vmv.s.x v11, t0
        vrgather.vv v13, v9, v11
        ebreak

#> step 40
