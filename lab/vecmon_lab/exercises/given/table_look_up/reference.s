# A byte at a time.
        add a1, a1, a2
        beqz a2, done
next:   addi a1, a1, -1
        lbu t0, 0(a1)
        add t0, t0, a3
        lbu t0, 0(t0)
        sb t0, 0(a0)
        addi a0, a0, 1
        addi a2, a2, -1
        bnez a2, next
done:   ret
