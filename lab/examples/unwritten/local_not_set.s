# Reads a variable on the stack that only one of two paths sets.
        addi sp, sp, -16
        li a0, 3
        beqz a0, set
        j look
set:    sw zero, 12(sp)
look:   lw a1, 12(sp)
        li a0, 0
branch: beqz a1, end
        li a0, 1
end:    addi sp, sp, 16
        li a7, 93
        ecall
