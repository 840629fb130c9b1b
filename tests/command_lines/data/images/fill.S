# The start of the program, and a vector routine that C calls.

        .globl _start, fill
_start:
        call main
        li a7, 93
        ecall

# void fill(unsigned *to, unsigned long count): stores the squares of 0 to count - 1 there.
fill:
        li t2, 0                # the first number of the next group
next:
        vsetvli t0, a1, e32, m2, ta, ma
        vid.v v8
        vadd.vx v8, v8, t2
        vmul.vv v8, v8, v8
        vse32.v v8, (a0)
        add t2, t2, t0
        sub a1, a1, t0
        slli t1, t0, 2
        add a0, a0, t1
        bnez a1, next
        ret
