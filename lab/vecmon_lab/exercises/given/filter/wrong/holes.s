# What is kept stays at its place, and the places between stay as they were.
        li t3, 0
next:   vsetvli t0, a2, e32, m8, ta, ma
        vle32.v v8, (a1)
        vmsgt.vx v0, v8, a3
        vse32.v v8, (a0), v0.t
        vcpop.m t1, v0
        add t3, t3, t1
        slli t1, t0, 2
        add a0, a0, t1
        add a1, a1, t1
        sub a2, a2, t0
        bnez a2, next
        mv a0, t3
        ret
