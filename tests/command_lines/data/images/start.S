# The start of a larger program: a global pointer, a stack of its own, and room for a heap.

        .globl _start, __heap_start, __heap_end
        .weak __tls_base
_start:
        .option push
        .option norelax
        la gp, __global_pointer$        # by which the linker may address globals
        .option pop
        la tp, __tls_base               # where picolibc has errno; 0 without picolibc
        la sp, stack_end
        call main
        li a7, 93
        ecall

        .bss
        .balign 16
        .skip 65536                     # the stack
stack_end:
__heap_start:
        .skip 65536                     # what malloc of picolibc hands out
__heap_end:
