# Writes without an end.
        mv a1, sp
        li a2, 32
        li a7, 64
next:   li a0, 1
        ecall
        j next
