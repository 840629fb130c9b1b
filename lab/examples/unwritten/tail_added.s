# Adds 13 ones, eight at a time. The last iteration has a tail of three elements of any value, and the sum includes them.
        li a1, 13
        vsetvli t0, zero, e32, m1, ta, ma
        vmv.v.i v8, 0
        vmv.s.x v9, zero
next:   vsetvli t0, a1, e32, m1, ta, ma
strip:  vadd.vi v8, v8, 1
        sub a1, a1, t0
        bnez a1, next
        vsetvli t0, zero, e32, m1, ta, ma
sum:    vredsum.vs v8, v8, v9
        vmv.x.s a0, v8
        li a7, 93
end:    ecall
