# A byte at a time.
        li t0, 0
        beqz a1, done
next:   lbu t1, 0(a0)
        add t0, t0, t1
        addi a0, a0, 1
        addi a1, a1, -1
        bnez a1, next
done:   mv a0, t0
        ret
