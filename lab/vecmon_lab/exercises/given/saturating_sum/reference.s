# The sum of two numbers at a time, and its bounds, without vectors.
        li t3, 32767
        li t4, -32768
        beqz a3, done
next:   lh t0, 0(a1)
        lh t1, 0(a2)
        add t0, t0, t1
        ble t0, t3, below
        mv t0, t3
below:  bge t0, t4, above
        mv t0, t4
above:  sh t0, 0(a0)
        addi a0, a0, 2
        addi a1, a1, 2
        addi a2, a2, 2
        addi a3, a3, -1
        bnez a3, next
done:   ret
