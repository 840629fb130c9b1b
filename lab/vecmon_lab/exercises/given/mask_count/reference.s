# A number at a time.
        li t0, 0
        beqz a1, done
next:   lh t1, 0(a0)
        blt t1, a2, out
        bgt t1, a3, out
        addi t0, t0, 1
out:    addi a0, a0, 2
        addi a1, a1, -1
        bnez a1, next
done:   mv a0, t0
        ret
