# The first sum is carried on, and not the last one.
        li t1, 0
next:   vsetvli t0, a2, e32, m4, ta, ma
        vle32.v v8, (a1)
        li t2, 1
step:   vmv.v.i v12, 0
        vslideup.vx v12, v8, t2
        vadd.vv v8, v8, v12
        slli t2, t2, 1
        bltu t2, t0, step
        vadd.vx v8, v8, t1
        vse32.v v8, (a0)
        addi t2, t0, -1
        vmv.x.s t1, v8
        slli t2, t0, 2
        add a0, a0, t2
        add a1, a1, t2
        sub a2, a2, t0
        bnez a2, next
        ret
