"""Assembler sources of images that several tests run."""

FOREVER = "loop: j loop"
ARGUMENTS = """
# Writes each argument and a newline, and exits with their number, if the words after them are as they should be.
        ld s0, 0(sp)
        addi s1, sp, 8
next:   ld s2, 0(s1)
        beqz s2, ends
        mv a1, s2
        li a2, 0
count:  add t0, a1, a2
        lbu t1, 0(t0)
        addi a2, a2, 1
        bnez t1, count
        addi t0, t0, 0
        li t1, 10
        sb t1, 0(t0)
        li a0, 1
        li a7, 64
        ecall
        addi s1, s1, 8
        j next
ends:   ld t0, 8(s1)                   # no variables, and no auxiliary entries
        ld t1, 16(s1)
        ld t2, 24(s1)
        or t0, t0, t1
        or t0, t0, t2
        andi t1, sp, 15
        or t0, t0, t1
        snez t0, t0
        slli t0, t0, 7
        or a0, s0, t0
        li a7, 93
        ecall
"""
WRITES = """
# Writes 5,000 times 8 bytes, and then goes on for ever.
        li s0, 5000
next:   li a0, 1
        la a1, text
        li a2, 8
        li a7, 64
        ecall
        addi s0, s0, -1
        bnez s0, next
loop:   j loop
        .data
text:   .ascii "1234567\\n"
"""
COUNTDOWN = """
# One instruction, three rounds of five, and an EBREAK: 3, 2 and 1 are stored at 11008.
        addi x5, x0, 3
loop:   addi x6, x6, 1
        auipc x7, 1
store:  sw x5, 0(x7)
behind: addi x5, x5, -1
        bne x5, x0, loop
        ebreak
        .data
        .zero 64
"""
EXIT = "li a7, 93\necall"
# A line an instruction, and behind | what it changes.
CHANGES = """
        lui a0, 0x11                |x10=11000
        li a1, 4                    |x11=4
        vsetvli a2, a1, e32, m1, ta, mu |x12=4  vl=4  vtype=e32,m1,ta,mu
        vid.v v8                    |v8.e32[1..3]=00000001,00000002,00000003
        vmsgtu.vi v0, v8, 1         |v0.e1[2..3]=11
        vsll.vi v9, v8, 8           |v9.e32[1..3]=00000100,00000200,00000300
        vse32.v v9, (a0), v0.t      |[11009]=02  [1100d]=03
        vadd.vi v9, v9, 1, v0.t     |v9.e32[2..3]=00000201,00000301
        li a3, -4                   |x13=fffffffffffffffc
        addi a4, a0, 32             |x14=11020
        vsse32.v v9, (a4), a3       |[11014]=0103  [11018]=0102  [1101d]=01
        vsuxei32.v v9, (a4), v9     |[11121]=01  [11221]=0102  [11321]=0103
        vsseg2e32.v v8, (a0)        |[11008]=0100  [1100d]=01  [11010]=02  [11015]=02  [11018]=0300  [1101c]=0103
        vsm.v v0, (a4)              |[11020]=0c
        vs1r.v v9, (a4)             |[11020]=00  [11025]=01  [11028]=0102  [1102c]=0103
        csrwi vxrm, 2               |vxrm=2
        vnclipu.wi v10, v8, 0       |vxsat=1  v10.e32[0..1]=ffffffff,ffffffff
        sd a3, 8(a0)                |[11008]=fcffffffffffffff
        lb a5, 8(a0)                |x15=fffffffffffffffc
        lui a6, 0x12                |x16=12000
        addi a6, a6, -8             |x16=11ff8
        vle32ff.v v8, (a6)          |vl=2  v8.e32[1]=00000000
        csrwi vstart, 1             |vstart=1
        vadd.vi v8, v8, 1           |vstart=0  v8.e32[1]=00000001
        vfirst.m a7, v0             |x17=ffffffffffffffff
        ecall                       |x10=ffffffffffffffda
        jal a0, next                |x10=1006c
next:   beqz a0, next               |
        vsetvli a2, a1, e32, m1, ta, mu |vl=4
        li t0, 7                    |x5=7
        vl2re8.v v8, (a4)           |v8.e8[4..5]=00,01  v8.e8[8..9]=01,02  v8.e8[12..13]=01,03  WHOLE
        vse32.v v10, (a6)           |vstart=2  [11ff8]=ffffffffffffffff
        .data
        .zero 1024
"""
