## The areas of twelve fields
# Twelve fields have a length and a width of one byte each. Compute their areas, which have 16 bits.

        .data
lengths: .byte 10, 20, 200, 255, 1, 7, 90, 128, 33, 64, 250, 12
widths: .byte 10, 30, 100, 255, 9, 7, 80, 128, 3, 64, 2, 12
        .balign 32
areas:  .zero 24

        .text
        la a0, lengths
        la a1, widths
        la a2, areas
        vsetivli zero, 12, e8, m1, ta, ma
        vle8.v v8, (a0)
        vle8.v v9, (a1)
# `vmul.vv` keeps the lower byte of each product: for 200 times 100 that is 32.
        vmul.vv v10, v8, v9
# `vwmulu.vv` has products of twice the width. Thirty-two bytes fill one register, and their products two: `v12` and `v13`. The first
# register of a group of two is even.
        vwmulu.vv v12, v8, v9
# To process them, set their type. With both operands zero, `vl` stays 12.
        vsetvli zero, zero, e16, m2, ta, ma
        vse16.v v12, (a2)
# Their sum doesn't fit into 16 bits: 65025 plus 20000 is too much already. The sum of the widening reduction has 32 bits.
        vsetvli zero, zero, e32, m4, ta, ma
        vmv.s.x v4, zero
        vsetvli zero, zero, e16, m2, ta, ma
        vwredsumu.vs v4, v12, v4
        vsetivli zero, 1, e32, m1, ta, ma
        vmv.x.s a3, v4
        ebreak

#> step 40
