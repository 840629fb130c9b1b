# A plain load reads past the page.
        mv t0, a0
next:   vsetvli t1, zero, e8, m8, ta, ma
        vle8.v v8, (t0)
        csrr t1, vl
        vmseq.vi v1, v8, 0
        vfirst.m t2, v1
        add t0, t0, t1
        bltz t2, next
        sub t0, t0, t1
        add t0, t0, t2
        sub a0, t0, a0
        ret
