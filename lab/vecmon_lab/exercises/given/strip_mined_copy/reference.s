# A byte at a time.
        beqz a2, done
next:   lbu t0, 0(a1)
        sb t0, 0(a0)
        addi a0, a0, 1
        addi a1, a1, 1
        addi a2, a2, -1
        bnez a2, next
done:   ret
