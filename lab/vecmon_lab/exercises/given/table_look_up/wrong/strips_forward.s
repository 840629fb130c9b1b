# Each strip is reversed, but the strips keep their order.
        vsetivli zero, 16, e8, m1, ta, ma
        vle8.v v4, (a3)
next:   vsetvli t0, a2, e8, m1, ta, ma
        vle8.v v8, (a1)
        vid.v v12
        addi t1, t0, -1
        vrsub.vx v12, v12, t1
        vrgather.vv v16, v8, v12
        vrgather.vv v20, v4, v16
        vse8.v v20, (a0)
        add a0, a0, t0
        add a1, a1, t0
        sub a2, a2, t0
        bnez a2, next
        ret
