# A number at a time.
        li t1, 0
        beqz a2, done
next:   lw t0, 0(a1)
        add t1, t1, t0
        sw t1, 0(a0)
        addi a0, a0, 4
        addi a1, a1, 4
        addi a2, a2, -1
        bnez a2, next
done:   ret
