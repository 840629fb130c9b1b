# A number at a time.
        beqz a2, done
next:   lbu t0, 0(a1)
        beqz t0, skip
        lw t1, 0(a0)
        bgez t1, plus
        neg t1, t1
plus:   ble t1, a3, fits
        mv t1, a3
fits:   sw t1, 0(a0)
skip:   addi a0, a0, 4
        addi a1, a1, 1
        addi a2, a2, -1
        bnez a2, next
done:   ret
