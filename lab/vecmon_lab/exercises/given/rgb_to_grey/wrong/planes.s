# Reads all reds first, then all greens, then all blues.
        csrwi vxrm, 1
        li t1, 77
        li t2, 150
        li t3, 29
        add a3, a1, a2
        add a4, a3, a2
next:   vsetvli t0, a2, e8, m2, ta, ma
        vle8.v v2, (a1)
        vle8.v v4, (a3)
        vle8.v v6, (a4)
        vwmulu.vx v8, v2, t1
        vwmaccu.vx v8, t2, v4
        vwmaccu.vx v8, t3, v6
        vnclipu.wi v2, v8, 8
        vse8.v v2, (a0)
        add a0, a0, t0
        add a1, a1, t0
        add a3, a3, t0
        add a4, a4, t0
        sub a2, a2, t0
        bnez a2, next
        ret
