// Every directive, symbols of all sections, and strings with escapes.
        .option nopic
        .section .text
        .global _start
        .type   _start, @function
_start:
start:  la      a0, message     # labels may stand together
        la      a1, buffer + 8
        la      a2, last_of_bss
        .byte   1
        .align  4
        nop
        .byte   1, 2
        .balign 8
        la      a0, end_of_text
        .string "in the text # no comment // none"
        .align  2
        .half   1, 2
        .word   0x12345678, -1, 4294967295, end_of_text
        .word   end_of_text - _start
        .align  2
        .zero   8
        .byte   3
        .dword  message
        .word   7
        .balign 1
        .align  0
        .align  2
        .size   _start, . - _start
end_of_text:
        la      a0, end_of_text - 4
        .data
        .byte   1, -128, 255
        .align  1
        .half   -1, 0xffff, 32767, -0x8000
        .align  2
message: .ascii "a\n\t\\\"\0\r\b\f\101\x41\1012\377", "é", ""
        .asciz  "x", "y"
        .string ""
        .align  3
        .dword  message, end_of_text, message+4, end_of_text-_start, 0xffffffffffffffff, -0x8000000000000000
        .set    SEVEN, 7
        .equ    LENGTH, . - message
        .equ    ALIAS, message + 2
        .word   SEVEN, -SEVEN, SEVEN+SEVEN-1, message-., LENGTH, ALIAS
        .word   - -3, +4, 1 + 2 - 3
        .zero   SEVEN
        .bss
        .zero   3
        .align  3
buffer: .zero   16
        .text
        li      a0, LENGTH
        addi    a0, a0, SEVEN - 1
        la      a1, ALIAS
        .section .data
        .byte   0x7f
end_of_data:
        .bss
        .zero   5000
last_of_bss: .zero 1
