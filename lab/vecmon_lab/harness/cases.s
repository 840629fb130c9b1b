# Carries out cases one after another, and compares what each leaves with what it should. A case is a list of words of 64 bits:
# its instruction, and above it the word jalr xS, 0(xS), plus 16 if it has memory; the runs of the state before; the runs of what
# it changes. A run is how many words, and above it where they go; then these. 0 ends the runs, and the cases.
_start:                 call environment_begin
                        la s3, begin_signature
                        li s0, LIST
                        for n in 1, 2: li s{n}, 0
# s1: the number of the case; s2: that of the first one that differs
next_case:              la s5, expected
                        lwu s7, 4(s0)
                        beqz s7, report
                        lwu s8, 0(s0)
                        addi s0, s0, 8
                        addi s1, s1, 1
                        mv a0, s5
                        la a1, empty
                        li a2, STATE_WORDS
                        call copy
                        call apply
                        andi t0, s7, 16
                        beqz t0, set_instruction
                        call environment_open
                        li a0, MEMORY
                        addi a1, s5, BLOCK_BYTES
                        li a2, MEMORY_WORDS
                        call copy
set_instruction:        andi t0, s7, -17                # its page is filled with jalr xS, 0(xS)
                        li a0, CODE
                        li a1, CODE + 4096
fill:                   sw t0, 0(a0)
                        addi a0, a0, 4
                        bne a0, a1, fill
                        li a0, PC
                        sw s8, 0(a0)
                        call environment_close
                        la t0, harness
                        for n at in 0 0, 1 8, 2 16, 3 24, 7 32: sd s{n}, {at}(t0)
                        sd t0, 40(t0)                   # running
                        call load_vectors
                        srli t0, s7, 15
                        for s in 25, 27, 29, 31: addi t0, t0, -{s}; beqz t0, enter_{s}; addi t0, t0, {s}
# of found all but the vector state is there
finish:                 la s6, found
                        call save_vectors
                        la t0, harness
                        sd x0, 40(t0)
                        for n at in 0 0, 1 8, 2 16, 3 24, 7 32: ld s{n}, {at}(t0)
                        la s5, expected
                        srli t0, s7, 15
                        slli t0, t0, 3
                        add t0, t0, s6
                        for at in 1080, 1088: sd x0, {at}(t0)
                        call apply
                        ld t0, 48(s5)
                        bnez t0, compare
                        sd x0, 48(s6)                   # a value that isn't expected isn't compared
compare:                for n in 4, 5: li a{n}, 0
                        for to from in a0 s6, a1 s5: mv {to}, {from}
                        addi a2, s6, BLOCK_BYTES
                        call digest
                        andi t0, s7, 16
                        beqz t0, compared
                        li a0, MEMORY
                        li a2, MEMORY + MEMORY_BYTES
                        call digest
compared:               sd a4, 0(s3)
                        addi s3, s3, 8
                        beqz a5, next_case
                        bnez s2, next_case
                        mv s2, s1
                        j next_case
# copies runs to the state that is expected
apply:                  mv a3, ra
apply_next:             lwu a2, 0(s0)
                        lwu a0, 4(s0)
                        addi a1, s0, 8
                        add a0, a0, s5
                        slli t0, a2, 3
                        add s0, a1, t0
                        beqz a2, applied
                        call copy
                        j apply_next
applied:                jr a3
                        .bss
                        .balign 8
harness:                .zero 40
running:                .zero 8
expected:               .zero BLOCK_BYTES + MEMORY_BYTES
empty:                  .zero BLOCK_BYTES + MEMORY_BYTES
                        .text
