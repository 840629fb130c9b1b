## A strip-mined loop
# y[i] += 3 x[i] where x[i] is above 4: thirteen elements, eight at a time.

        .data
x:      .word 9, 2, 7, 1, 8, 3, 6, 4, 5, 1, 12, 3, 20
        .balign 64
y:      .word 100, 100, 100, 100, 100, 100, 100, 100, 100, 100, 100, 100, 100

        .text
        li a0, 13
        la a1, x
        la a2, y
        li t1, 3
# vl is the number of 32-bit elements of this iteration: those that are left, but no more than a register holds.
next:   vsetvli t0, a0, e32, m1, ta, mu
        vle32.v v8, (a1)
        vle32.v v9, (a2)
# The mask in v0 has a bit for each element: 1 where x[i] is above 4.
        vmsgtu.vi v0, v8, 4
# Elements that are masked off keep their values, since the type has `mu`.
        vmacc.vx v9, t1, v8, v0.t
        vse32.v v9, (a2)
        sub a0, a0, t0
        slli t2, t0, 2
        add a1, a1, t2
        add a2, a2, t2
# Continue with the elements that are left, if there are any.
        bnez a0, next
        ebreak

#> step 60
