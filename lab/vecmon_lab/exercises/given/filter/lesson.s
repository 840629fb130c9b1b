## The odd ones of eight, in two ways
# Write the odd ones of eight numbers one after the other.

        .data
        .balign 32
numbers: .word 4, 7, 1, 8, 9, 2, 5, 6
odd:    .zero 32

        .text
        la a0, numbers
        la a1, odd
        vsetivli zero, 8, e32, m1, ta, ma
        vle32.v v8, (a0)
# The lowest bit of an odd number is 1: the mask has a 1 there.
        vand.vi v9, v8, 1
        vmsne.vi v0, v9, 0
# `vcompress.vm` packs them at the start. The elements after them have no specified value.
        vcompress.vm v10, v8, v0
# So count them.
        vcpop.m a2, v0
# The other way: `viota.m` gives each element the number of ones in the mask before it. For an odd number that is its new index.
        viota.m v11, v0
# Four times that is its distance from `a1`, and a masked indexed store writes the odd ones there.
        vsll.vi v11, v11, 2
        vsuxei32.v v8, (a1), v11, v0.t
        ebreak

#> step 40
