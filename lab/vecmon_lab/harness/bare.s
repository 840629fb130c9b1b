# The environment of a core in machine mode: a handler of traps; tohost takes twice the status, plus 1. There is no output.
environment_begin:      li t0, 0x600
                        .word 0x3002a073                # csrs mstatus, t0: the vector unit is on
                        la t0, handler
                        .word 0x30529073                # csrw mtvec, t0
                        la t0, found
                        .word 0x34029073                # csrw mscratch, t0
                        ret
handler:                .word 0x340f9ff3                # csrrw x31, mscratch, x31
                        save x31, x31
                        .word 0x340022f3                # csrr t0, mscratch
                        sd t0, 1336(x31)
                        .word 0x340f9073                # csrw mscratch, x31
                        .word 0x341022f3                # csrr t0, mepc
                        sd t0, 1088(x31)
                        .word 0x342022f3                # csrr t0, mcause
                        addi t0, t0, 1
                        sd t0, 0(x31)
                        .word 0x343022f3                # csrr t0, mtval
                        sd t0, 48(x31)
                        la t0, running
                        ld t0, 0(t0)
                        bnez t0, finish
astray:                 li a0, 255
# a0: the status
environment_end:        slli a0, a0, 1
                        addi a0, a0, 1
                        la t0, tohost
ended:                  sd a0, 0(t0)
                        j ended
environment_close:      .word 0x0000100f                # fence.i
environment_open:
environment_put:        ret
                        .data
                        .balign 8
                        for name in tohost, fromhost: {name}: .dword 0; .size {name}, 8
                        .text
