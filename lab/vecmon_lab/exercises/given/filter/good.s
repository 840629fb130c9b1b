        mv t3, a0
next:   vsetvli t0, a2, e32, m8, ta, ma
        vle32.v v8, (a1)
        vmsgt.vx v1, v8, a3
        vcompress.vm v16, v8, v1
        vcpop.m t1, v1
        vsetvli zero, t1, e32, m8, ta, ma
        vse32.v v16, (a0)
        slli t1, t1, 2
        add a0, a0, t1
        slli t1, t0, 2
        add a1, a1, t1
        sub a2, a2, t0
        bnez a2, next
        sub a0, a0, t3
        srli a0, a0, 2
        ret
