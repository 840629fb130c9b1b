# y = 7 x + y for thirty-seven words, in steps of as many as a group of two registers holds.
        .option nopic
_start: li      a0, 37
        li      a1, 7
        la      a2, x
        la      a3, y
loop:   vsetvli t0, a0, e32, m2, ta, ma
        vle32.v v2, 0(a2)
        vle32.v v4, 0(a3)
        vmacc.vx v4, a1, v2
        vse32.v v4, 0(a3)
        sub     a0, a0, t0
        slli    t1, t0, 2
        add     a2, a2, t1
        add     a3, a3, t1
        bgtz    a0, loop
        ebreak

        .data
        .align  2
x:      .word   1, 2, 3, 4, 5, 6, 7, 8, 9, 10, 11, 12, 13, 14, 15, 16, 17, 18, 19, 20
        .word   -1, -2, -3, -4, -5, -6, -7, -8, 0x7fffffff, 0x80000000, 21, 22, 23, 24, 25, 26, 27
y:      .zero   4
        .word   100, 200, 300, 400, 500, 600, 700, 800, 900, 1000, 1100, 1200, 1300, 1400, 1500, 1600, 1700, 1800
        .word   10, 20, 30, 40, 50, 60, 70, 80, 90, 0xffffffff, 110, 120, 130, 140, 150, 160, 170, 180
