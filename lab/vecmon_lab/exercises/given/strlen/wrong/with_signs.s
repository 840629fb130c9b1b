# Bytes from 128 on are taken to be less than zero.
        mv t0, a0
next:   vsetvli t1, zero, e8, m8, ta, ma
        vle8ff.v v8, (t0)
        csrr t1, vl
        vmsle.vi v1, v8, 0
        vfirst.m t2, v1
        add t0, t0, t1
        bltz t2, next
        sub t0, t0, t1
        add t0, t0, t2
        sub a0, t0, a0
        ret
