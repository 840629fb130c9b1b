# There is no loop: bytes that don't fit into the largest group are left out.
        vsetvli t0, a2, e8, m8, ta, ma
        vle8.v v8, (a1)
        vse8.v v8, (a0)
        ret
