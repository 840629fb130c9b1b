next:   vsetvli t0, a2, e8, m2, ta, ma
        vle8.v v2, (a1)
        vmsne.vi v0, v2, 0
        vsetvli zero, zero, e32, m8, ta, mu
        vle32.v v8, (a0)
        vneg.v v16, v8
        vmax.vv v16, v8, v16
        vminu.vx v8, v16, a3, v0.t
        vse32.v v8, (a0)
        slli t1, t0, 2
        add a0, a0, t1
        add a1, a1, t0
        sub a2, a2, t0
        bnez a2, next
        ret
