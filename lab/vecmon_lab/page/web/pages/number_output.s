# Prints a number: put_int a signed one in a0, put_uint an unsigned one, put_hex hexadecimal digits.
# They change a0 to a5, a7 and t0.
put_int:
        li      a4, 10
        sltz    a5, a0                  # 1 if there is a sign
        beqz    a5, 1f
        neg     a0, a0
        j       1f
put_hex:
        li      a4, 16
        j       0f
put_uint:
        li      a4, 10
0:      li      a5, 0
1:      addi    sp, sp, -32
        addi    a1, sp, 32              # digits are written from the last one on
2:      remu    a3, a0, a4
        divu    a0, a0, a4
        addi    a3, a3, '0'
        li      t0, '9'
        bleu    a3, t0, 3f
        addi    a3, a3, 'a' - '9' - 1
3:      addi    a1, a1, -1
        sb      a3, 0(a1)
        bnez    a0, 2b
        beqz    a5, 4f
        li      a3, '-'
        addi    a1, a1, -1
        sb      a3, 0(a1)
4:      addi    a2, sp, 32
        sub     a2, a2, a1              # the number of characters
        li      a0, 1                   # standard output
        li      a7, 64                  # write
        ecall
        addi    sp, sp, 32
        ret
