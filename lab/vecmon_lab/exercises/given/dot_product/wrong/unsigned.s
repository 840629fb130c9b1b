# The bytes are read as unsigned.
        vsetivli zero, 1, e32, m1, ta, ma
        vmv.s.x v4, zero
        beqz a2, done
next:   vsetvli t0, a2, e8, m4, ta, ma
        vle8.v v8, (a0)
        vle8.v v12, (a1)
        vwmulu.vv v16, v8, v12
        vsetvli zero, zero, e16, m8, ta, ma
        vwredsum.vs v4, v16, v4
        add a0, a0, t0
        add a1, a1, t0
        sub a2, a2, t0
        bnez a2, next
done:   vsetivli zero, 1, e32, m1, ta, ma
        vmv.x.s a0, v4
        ret
