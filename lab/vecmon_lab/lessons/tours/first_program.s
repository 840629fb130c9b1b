# A program computes with 32 scalar registers of 64 bits, 32 vector registers of 256 bits, and memory. What an instruction changes is marked.

        .data
numbers: .word 3, 1, 4, 1, 5, 9, 2, 6
        .balign 64
results: .zero 32

        .text
# `li` puts a number into a register. Each register has two names: `a0` is `x10`.
        li a0, 42
# Most instructions compute with registers: `a1` becomes twice `a0`.
        add a1, a0, a0
# `la` puts the address of a label into a register. It takes two instructions of the machine, which are in the listing.
        la a2, numbers
# `lw` loads a word, 32 bits: the first number, and the one 4 bytes after it.
        lw a3, 0(a2)
        lw a4, 4(a2)
# `sw` stores a word.
        add a3, a3, a4
        la a5, results
        sw a3, 0(a5)
# A vector register has several numbers, its elements. Eight elements of 32 bits fill one register.
        vsetivli zero, 8, e32, m1, ta, ma
        vle32.v v1, (a2)
# One instruction adds 10 to all of them.
        vadd.vi v2, v1, 10
        vse32.v v2, (a5)
# `ebreak` stops the program.
        ebreak

#> step 40
