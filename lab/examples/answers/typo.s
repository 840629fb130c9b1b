# The third line has a register too few.
next:   vsetvli t0, a3, e16, m8, ta, ma
        vle16.v v8
        ret
