# The numbers are read as unsigned.
next:   vsetvli t0, a3, e16, m8, ta, ma
        vle16.v v8, (a1)
        vle16.v v16, (a2)
        vsaddu.vv v8, v8, v16
        vse16.v v8, (a0)
        slli t1, t0, 1
        add a0, a0, t1
        add a1, a1, t1
        add a2, a2, t1
        sub a3, a3, t0
        bnez a3, next
        ret
