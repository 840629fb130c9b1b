# A number at a time.
        mv t3, a0
        beqz a2, done
next:   lw t0, 0(a1)
        ble t0, a3, skip
        sw t0, 0(a0)
        addi a0, a0, 4
skip:   addi a1, a1, 4
        addi a2, a2, -1
        bnez a2, next
done:   sub a0, a0, t3
        srli a0, a0, 2
        ret
