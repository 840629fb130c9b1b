# A double that has no room becomes the largest number.
        vsetvli t0, a2, e32, m1, ta, ma
        vle32.v v8, (a1)
        vsadd.vv v8, v8, v8
        vse32.v v8, (a0)
        ret
