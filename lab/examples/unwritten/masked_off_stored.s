# Doubles two of four elements, and stores all four: with `ma` the other two may have any value.
        vsetivli zero, 4, e8, mf2, ta, ma
        vmv.v.i v0, 5
        vmv.v.i v8, 1
double: vadd.vv v8, v8, v8, v0.t
        la a1, four
store:  vse8.v v8, (a1)
        lbu a2, 1(a1)
        li t0, 2
        li a0, 0
branch: bltu a2, t0, end
        li a0, 1
end:    li a7, 93
        ecall
        .data
four:   .word 0
