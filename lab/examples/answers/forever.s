# A loop without an end.
next:   vsetvli t0, a3, e16, m8, ta, ma
        j next
