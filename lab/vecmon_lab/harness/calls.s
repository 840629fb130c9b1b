# How a program writes and ends, in Linux's user mode and on vecmon.
# a1: the address of bytes; a2: how many
environment_put:        li a0, 1
                        li a7, 64                       # write
                        ecall
                        blez a0, astray
                        add a1, a1, a0
                        sub a2, a2, a0
                        bnez a2, environment_put
                        ret
astray:                 li a0, 255
# a0: the status
environment_end:        li a7, 93                       # exit
                        ecall
