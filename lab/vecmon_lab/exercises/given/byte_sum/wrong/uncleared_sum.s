# The sum of the strips begins with what t0 holds.
        beqz a1, done
        vsetivli zero, 1, e16, m1, ta, ma
        vmv.s.x v4, zero
next:   vsetvli t1, a1, e8, m8, ta, ma
        vle8.v v8, (a0)
        vwredsumu.vs v5, v8, v4
        vsetivli zero, 1, e16, m1, ta, ma
        vmv.x.s t2, v5
        zext.h t2, t2
        add t0, t0, t2
        add a0, a0, t1
        sub a1, a1, t1
        bnez a1, next
done:   mv a0, t0
        ret
