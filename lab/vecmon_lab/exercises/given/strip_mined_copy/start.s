# a0: address of the copy
# a1: address of the bytes
# a2: their count
next:   vsetvli t0, a2, e8, m1, ta, ma  # bytes of this strip

        bnez a2, next
        ret
