# Copies a text into bss and puts out the copy.
        .option nopic
        .data
text:   .ascii  "Bytes that are copied by vectors of a hundred and twenty-eight bytes, and what remains by a shorter one:"
        .ascii  " the length says how many there are, and vsetvli how many of them are done in each step.\n"
        .equ    LENGTH, . - text
        .bss
        .zero   5
copy:   .zero   256

        .text
_start: la      a0, copy
        la      a1, text
        li      a2, LENGTH
        jal     memcpy
        mv      a1, a0
        li      a0, 1
        li      a2, LENGTH
        li      a7, 64                  # write
        ecall
        li      a0, 0
        li      a7, 93                  # exit
        ecall

memcpy: mv      a3, a0
next:   vsetvli t0, a2, e8, m4, ta, ma
        vle8.v  v0, (a1)
        vse8.v  v0, (a3)
        add     a1, a1, t0
        add     a3, a3, t0
        sub     a2, a2, t0
        bnez    a2, next
        ret
