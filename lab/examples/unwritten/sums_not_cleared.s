# Adds products to v8, which no instruction has set to 0.
        la a1, four
        vsetivli zero, 4, e32, m1, ta, ma
        vle32.v v9, (a1)
add:    vmacc.vv v8, v9, v9
        vmv.s.x v10, zero
        vredsum.vs v10, v8, v10
        vmv.x.s a2, v10
        sw a2, 0(a1)
        li a0, 1
        li a2, 4
        li a7, 64
write:  ecall
        li a0, 0
        li a7, 93
        ecall
        .data
four:   .word 1, 2, 3, 4
