# Exits with the length of a string, which a fault-only-first load reads up to the end of its page.
        .option nopic
_start: la      a0, text
        jal     strlen
        li      a7, 93
        ecall

strlen: mv      a3, a0
again:  vsetvli a1, zero, e8, m8, ta, ma
        vle8ff.v v8, (a3)
        csrr    a1, vl
        vmseq.vi v0, v8, 0
        vfirst.m a2, v0
        add     a3, a3, a1
        bltz    a2, again
        sub     a3, a3, a1
        add     a3, a3, a2
        sub     a0, a3, a0
        ret

        .data
        .zero   3900
text:   .ascii  "A string of a hundred and ninety-two bytes, which is more than the page has left, begins"
        .string " here; and it is read in more than one step by vectors of two hundred and fifty-six bytes each in all."
