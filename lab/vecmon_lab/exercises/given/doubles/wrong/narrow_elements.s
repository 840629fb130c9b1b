# The elements have half of their width: nothing is carried from one half of a number to the other.
        slli a2, a2, 1
        vsetvli t0, a2, e16, m1, ta, ma
        vle16.v v8, (a1)
        vadd.vv v8, v8, v8
        vse16.v v8, (a0)
        ret
