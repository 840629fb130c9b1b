# A product at a time.
        li t0, 0
        beqz a2, done
next:   lb t1, 0(a0)
        lb t2, 0(a1)
        mul t1, t1, t2
        add t0, t0, t1
        addi a0, a0, 1
        addi a1, a1, 1
        addi a2, a2, -1
        bnez a2, next
done:   mv a0, t0
        ret
