## The largest of ten, and their sum
# Find the largest of ten 16-bit numbers, and their sum. A reduction computes one number from all elements.

        .data
numbers: .half 30000, 12, 31000, 7, 25000, 9, 32000, 1, 5, 28000

        .text
        la a0, numbers
        li a1, 10
        vsetvli t0, a1, e16, m1, ta, ma
        vle16.v v8, (a0)
# A reduction starts with element 0 of its last operand: here 0.
        vmv.s.x v4, zero
# The largest of all elements of `v8` and of element 0 of `v4` becomes element 0 of `v5`. The tail doesn't count.
        vredmaxu.vs v5, v8, v4
        vmv.x.s a2, v5
# The sum doesn't fit into 16 bits: `vredsum.vs` loses the upper bits.
        vredsum.vs v6, v8, v4
# The sum of `vwredsumu.vs` has twice the width, and so has the 0 that it starts with.
        vsetvli zero, zero, e32, m2, ta, ma
        vmv.s.x v4, zero
        vsetvli zero, zero, e16, m1, ta, ma
        vwredsumu.vs v7, v8, v4
# Read the sum as an element of 32 bits.
        vsetivli zero, 1, e32, m1, ta, ma
        vmv.x.s a3, v7
        ebreak

#> step 40
