# Counts the letters of a text in t1, which no instruction has set to 0.
        la a1, text
next:   lbu t0, 0(a1)
        beqz t0, done
count:  addi t1, t1, 1
        addi a1, a1, 1
        j next
done:   li t2, 4
branch: bgtu t1, t2, long
        li a0, 0
        j end
long:   li a0, 1
end:    li a7, 93
        ecall
        .data
text:   .asciz "four"
