# One number at a time, without vectors.
        beqz a2, done
next:   lw t0, 0(a1)
        slli t0, t0, 1
        sw t0, 0(a0)
        addi a0, a0, 4
        addi a1, a1, 4
        addi a2, a2, -1
        bnez a2, next
done:   ret
