# There is no second round.
        vsetvli t1, zero, e8, m8, ta, ma
        vle8ff.v v8, (a0)
        vmseq.vi v1, v8, 0
        vfirst.m a0, v1
        ret
