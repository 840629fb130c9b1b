# Carries out a program, which calls `checkpoint` after each ten instructions: a digest of what is fixed goes to the signature.
_start:                 call environment_begin
                        li s5, LIST
                        call load_vectors
                        li x30, LIST
                        load x30, x31
                        la x30, found
                        li x31, LIST + 4096
                        jr x31
# x30: the block; x31: where a word has a bit for each vector register that counts
checkpoint:             save x30, x31
                        mv s6, x30
                        call save_vectors
                        lwu s4, 0(x31)
digest_state:           li a4, 0
                        for first bytes in 0 56, 1096 232: addi a0, s6, {first}; addi a2, a0, {bytes}; mv a1, a0; call digest
                        addi s5, s6, 64
digest_vectors:         andi t0, s4, 1
                        srli s4, s4, 1
                        for n in 0, 1: mv a{n}, s5
                        addi s5, s5, 32
                        beqz t0, digest_next
                        mv a2, s5
                        call digest
digest_next:            bnez s4, digest_vectors
                        call keep
                        ld t0, 40(s6)
                        csrw vstart, t0
                        load x30, x31
                        jalr x0, 4(x31)
# a fault that the environment has reported
finish:                 la x30, found
                        mv s6, x30
                        call save_vectors
                        li s4, 0xffffffff
                        la x31, done - 4
                        j digest_state
done:                   li a0, MEMORY
                        li a2, MEMORY + MEMORY_BYTES
                        mv a1, a0
                        li a4, 0
                        call digest
                        call keep
                        li s2, 0
                        j report
# a4 goes to the signature
keep:                   la t0, place
                        ld t1, 0(t0)
                        sd a4, 0(t1)
                        addi t1, t1, 8
                        sd t1, 0(t0)
                        ret
                        .data
                        .balign 8
place:                  .dword begin_signature
running:                .dword 1
                        .text
