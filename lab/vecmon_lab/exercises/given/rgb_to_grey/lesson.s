## Two channels become one
# Six samples of a sound with two channels, left and right, a byte each: compute their means, rounded in four ways.

        .data
sound:  .byte 10, 11, 20, 23, 255, 255, 0, 1, 100, 50, 7, 6

        .text
        la a0, sound
        li a1, 6
        vsetvli t0, a1, e8, m1, ta, ma
# A segment load separates the channels: all left samples go to `v2`, and all right ones to `v3`.
        vlseg2e8.v v2, (a0)
# Their sum may have 9 bits, so it has twice the width: `v8` and `v9` are one group.
        vwaddu.vv v8, v2, v3
# A narrowing clip shifts right, rounds, and halves the width. Mode 0 rounds to nearest, ties up: 10.5 becomes 11.
        csrwi vxrm, 0
        vnclipu.wi v10, v8, 1
# Mode 1 rounds ties to even: 10.
        csrwi vxrm, 1
        vnclipu.wi v11, v8, 1
# Mode 2 rounds down, and mode 3 to odd.
        csrwi vxrm, 2
        vnclipu.wi v12, v8, 1
        csrwi vxrm, 3
        vnclipu.wi v13, v8, 1
# A result that doesn't fit is clipped: without a shift 510 becomes 255, and `vxsat` becomes 1.
        vnclipu.wi v14, v8, 0
        ebreak

#> step 40
