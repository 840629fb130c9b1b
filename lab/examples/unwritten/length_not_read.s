# Adds up twelve bytes by a fault-only-first load. The load may leave a shorter vl, which the program doesn't read.
        la a1, bytes
        li a2, 12
        vsetvli t0, a2, e8, m1, ta, ma
        vmv.s.x v9, zero
load:   vle8ff.v v8, (a1)
sum:    vredsum.vs v9, v8, v9
        vmv.x.s a0, v9
        li a7, 93
end:    ecall
        .data
bytes:  .byte 1, 2, 3, 4, 5, 6, 7, 8, 9, 10, 11, 12
