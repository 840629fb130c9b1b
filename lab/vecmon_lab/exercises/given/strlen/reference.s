# A byte at a time.
        mv t0, a0
next:   lbu t1, 0(t0)
        beqz t1, done
        addi t0, t0, 1
        j next
done:   sub a0, t0, a0
        ret
