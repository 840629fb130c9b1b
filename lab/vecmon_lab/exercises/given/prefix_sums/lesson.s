## The highest so far
# The heights of eight mountains, from left to right: compute at each the greatest height so far.

        .data
        .balign 32
heights: .word 300, 100, 400, 150, 500, 900, 200, 600

        .text
        la a0, heights
        vsetivli zero, 8, e32, m1, ta, ma
        vle32.v v8, (a0)
# A slide by 1 moves each height to the next element. Element 0 of `v9` is unchanged: set it to 0, which changes no maximum.
        vmv.v.i v9, 0
        vslideup.vi v9, v8, 1
# The greater of a height and the previous one: the maximum of two.
        vmaxu.vv v8, v8, v9
# Two places before is the maximum of two more, so now each has the maximum of four.
        vmv.v.i v9, 0
        vslideup.vi v9, v8, 2
        vmaxu.vv v8, v8, v9
# Four places before: the maximum of eight. Three steps are enough for eight elements, and four for sixteen.
        vmv.v.i v9, 0
        vslideup.vi v9, v8, 4
        vmaxu.vv v8, v8, v9
# The last one is the maximum of all. A slide down moves it to element 0, where `vmv.x.s` can read it.
        vslidedown.vi v10, v8, 7
        vmv.x.s a1, v10
        ebreak

#> step 40
