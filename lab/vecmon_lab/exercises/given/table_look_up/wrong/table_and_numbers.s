# The operands of the second gather are the wrong way round.
        vsetivli zero, 16, e8, m4, ta, ma
        vle8.v v4, (a3)
        add a1, a1, a2
next:   vsetvli t0, a2, e8, m4, ta, ma
        sub a1, a1, t0
        vle8.v v8, (a1)
        vid.v v12
        addi t1, t0, -1
        vrsub.vx v12, v12, t1
        vrgather.vv v16, v8, v12
        vrgather.vv v20, v16, v4
        vse8.v v20, (a0)
        add a0, a0, t0
        sub a2, a2, t0
        bnez a2, next
        ret
