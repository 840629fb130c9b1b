# Code that programs share: the vector state, a digest of memory, and the report. The block of a state is that of on_qemu.py.
# from the block at s5
load_vectors:           for n at in 0 8, 1 16: ld t{n}, {at}(s5)
                        vsetvl x0, t0, t1
                        addi t0, s5, 64
                        for n in 0, 8, 16, 24: vl8re8.v v{n}, (t0); addi t0, t0, 256
                        for csr at in vxrm 24, vxsat 32, vstart 40: ld t0, {at}(s5); csrw {csr}, t0
                        ret
# into the block at s6
save_vectors:           for csr at in vl 8, vtype 16, vxrm 24, vxsat 32, vstart 40: csrr t0, {csr}; sd t0, {at}(s6)
                        csrwi vstart, 0
                        addi t0, s6, 64
                        for n in 0, 8, 16, 24: vs8r.v v{n}, (t0); addi t0, t0, 256
                        ret
# a4 takes up the words from a0 to a2; a5 isn't 0 then if any is another one at a1
digest:                 ld t0, 0(a0)
                        ld t1, 0(a1)
                        xor t1, t1, t0
                        or a5, a5, t1
                        slli t1, a4, 5
                        sub a4, t1, a4
                        add a4, a4, t0
                        addi a0, a0, 8
                        addi a1, a1, 8
                        bne a0, a2, digest
                        ret
# a2 words of 64 bits, from a1 to a0
copy:                   ld t0, 0(a1)
                        sd t0, 0(a0)
                        addi a0, a0, 8
                        addi a1, a1, 8
                        addi a2, a2, -1
                        bnez a2, copy
                        ret
# prints the signature and the number in s2, and exits with it
report:                 la a0, begin_signature
                        la a3, end_signature
                        la a2, text
                        sd s2, 0(a3)
report_word:            lwu t0, 0(a0)
                        li t1, 28
report_digit:           srl t2, t0, t1
                        andi t2, t2, 15
                        sltiu t3, t2, 10
                        addi t2, t2, 0x57               # a letter
                        beqz t3, report_byte
                        addi t2, t2, -0x27              # a digit
report_byte:            sb t2, 0(a2)
                        addi a2, a2, 1
                        addi t1, t1, -4
                        bgez t1, report_digit
                        li t2, 10
                        sb t2, 0(a2)
                        addi a2, a2, 1
                        addi a0, a0, 4
                        bgeu a3, a0, report_word
                        la a1, text
                        sub a2, a2, a1
                        call environment_put
                        mv a0, s2
                        j environment_end
                        .bss
                        .balign 8
found:                  .zero BLOCK_BYTES
                        .balign 16
begin_signature:        .zero SIGNATURE_BYTES
end_signature:          .zero 8
text:                   .zero TEXT_BYTES
                        .text
