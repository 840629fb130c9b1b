## Squares of five numbers
# Square five numbers of 32 bits. A scalar loop takes one after the other; vector instructions take all five at once.

        .data
numbers: .word 3, 1, 4, 1, 5, 9, 2
        .balign 64
squares: .word 100, 100, 100, 100, 100, 100, 100

        .text
        la a1, numbers
        la a0, squares
        li a2, 5
# First set the number of elements and their width: `e32`, in one register, `m1`. A register has 256 bits, so it holds eight of them: `vl`
# becomes 5, and the other three are the tail.
        vsetvli t0, a2, e32, m1, ta, ma
# One instruction loads all five. The memory after them isn't read.
        vle32.v v8, (a1)
# One instruction multiplies each element by itself.
        vmul.vv v8, v8, v8
# Store five; the hundreds after them are unchanged.
        vse32.v v8, (a0)
# `vl` stays the same until the next `vsetvli`.
        ebreak

#> vset v8 5555555555555555555555555555555555555555555555555555555555555555
#> step 40
