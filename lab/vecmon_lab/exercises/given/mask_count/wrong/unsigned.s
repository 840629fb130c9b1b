# The numbers are read as unsigned.
        li t0, 0
next:   vsetvli t1, a1, e16, m8, ta, ma
        vle16.v v8, (a0)
        vmsltu.vx v1, v8, a2
        vmsgtu.vx v2, v8, a3
        vmnor.mm v1, v1, v2
        vcpop.m t2, v1
        add t0, t0, t2
        slli t2, t1, 1
        add a0, a0, t2
        sub a1, a1, t1
        bnez a1, next
        mv a0, t0
        ret
