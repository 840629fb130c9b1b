# A dot at a time. 127 and the lowest bit of the whole part are added before the division: that rounds to the nearest, and to the even one.
        li t4, 77
        li t5, 150
        li t6, 29
        beqz a2, done
next:   lbu t0, 0(a1)
        lbu t1, 1(a1)
        lbu t2, 2(a1)
        mul t0, t0, t4
        mul t1, t1, t5
        mul t2, t2, t6
        add t0, t0, t1
        add t0, t0, t2
        srli t1, t0, 8
        andi t1, t1, 1
        addi t0, t0, 127
        add t0, t0, t1
        srli t0, t0, 8
        sb t0, 0(a0)
        addi a0, a0, 1
        addi a1, a1, 3
        addi a2, a2, -1
        bnez a2, next
done:   ret
