## Losses halved
# Eight balances: halve those below zero with an arithmetic shift, and leave the others unchanged.

        .data
        .balign 32
balances: .word 100, -100, 7, -7, 0, -1, 250, -64

        .text
        la a0, balances
# The type ends in `mu`: masked-off elements keep their old values.
        vsetivli zero, 8, e32, m1, ta, mu
        vle32.v v8, (a0)
# The mask has a 1 for each balance below 0. It must be in `v0`, the only mask register of masked instructions.
        vmslt.vx v0, v8, zero
# With `v0.t`, the shift processes only those elements. Stripes mark the masked-off ones.
        vsra.vi v8, v8, 1, v0.t
# `vmerge` selects by the mask instead: the first source where the bit is 0, the second, here the number 0, where it is 1.
        vmerge.vim v9, v8, 0, v0
# The minimum of balance and 50, signed; all elements take part again.
        li t1, 50
        vmin.vx v10, v8, t1
        vse32.v v8, (a0)
        ebreak

#> step 40
