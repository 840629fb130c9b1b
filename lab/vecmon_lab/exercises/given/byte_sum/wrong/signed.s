# The bytes are read as signed.
        li t0, 0
        beqz a1, done
        vsetivli zero, 1, e16, m1, ta, ma
        vmv.s.x v4, zero
next:   vsetvli t1, a1, e8, m8, ta, ma
        vle8.v v8, (a0)
        vwredsum.vs v5, v8, v4
        vsetivli zero, 1, e16, m1, ta, ma
        vmv.x.s t2, v5
        add t0, t0, t2
        add a0, a0, t1
        sub a1, a1, t1
        bnez a1, next
done:   mv a0, t0
        ret
