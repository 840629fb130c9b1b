## Darker by forty, and not below zero
# Subtract 40 from each of twelve bytes, the brightness of pixels. Saturation keeps the result at 0 or above.

        .data
dots:   .byte 200, 41, 40, 39, 0, 255, 12, 100, 7, 90, 128, 1

        .text
        la a0, dots
        li a2, 12
        li a3, 40
        vsetvli t0, a2, e8, m1, ta, ma
        vle8.v v8, (a0)
# Plain arithmetic wraps around: 39 becomes 255, a white pixel.
        vsub.vx v9, v8, a3
# Unsigned saturating arithmetic stops at 0 instead, and sets `vxsat` to 1, which stays set.
        vssubu.vx v8, v8, a3
        vse8.v v8, (a0)
# Signed numbers range from -128 to 127; `vssub.vx` saturates to that range.
        ebreak

#> step 40
