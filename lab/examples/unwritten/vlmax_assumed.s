# Adds up twelve words, eight at a time. Of twelve, the first iteration may take six to eight, and the program goes on by eight.
        la a1, words
        li a2, 12
        vsetvli t1, zero, e32, m1, ta, ma
        vmv.v.i v8, 0
        vmv.s.x v9, zero
strip:  vsetvli t0, a2, e32, m1, tu, ma
        vle32.v v10, (a1)
        vadd.vv v8, v8, v10
        sub a2, a2, t1
        addi a1, a1, 32
        bgtz a2, strip
        vsetvli t0, zero, e32, m1, ta, ma
sum:    vredsum.vs v8, v8, v9
        vmv.x.s a0, v8
        li a7, 93
end:    ecall
        .data
words:  .word 1, 2, 3, 4, 5, 6, 7, 8, 9, 10, 11, 12
