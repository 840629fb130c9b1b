# The environment of Linux's user mode: a stack and a handler for signals, and a page that can only be read between cases.
environment_begin:      la a0, stack_of_signals
                        li a1, 0
                        li a7, 132                      # sigaltstack
                        ecall
                        la a1, action
                        li a2, 0
                        li a3, 8
                        li a7, 134                      # rt_sigaction, of SIGILL, SIGTRAP, SIGBUS and SIGSEGV
                        for signal in 4, 5, 7, 11: li a0, {signal}; ecall
                        ret
# a0: the signal; a1: its information; a2: the registers then
handler:                la t0, running
                        ld t0, 0(t0)
                        beqz t0, astray
                        la s6, found
                        sd a0, 0(s6)
                        ld t0, 16(a1)
                        sd t0, 48(s6)
                        addi a1, a2, 176
                        addi a0, s6, 1088               # the program counter and x1 to x31
                        li a2, 32
                        call copy
                        j finish
environment_open:       li a2, 3
                        j protect
environment_close:      .word 0x0000100f                # fence.i
                        li a2, 1
protect:                li a0, READ_ONLY
                        li a1, 4096
                        li a7, 226                      # mprotect
                        ecall
                        ret
                        .data
                        .balign 8
stack_of_signals:       .dword signals, 0, 65536
action:                 .dword handler, 0x48000004, 0   # SA_NODEFER, SA_ONSTACK, SA_SIGINFO
                        .bss
                        .balign 16
signals:                .zero 65536
                        .text
