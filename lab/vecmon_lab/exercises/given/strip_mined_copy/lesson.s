## Twenty sevens, eight at a time
# Set twenty words to 7. A register holds eight words of 32 bits, so this takes three iterations: eight, eight and four.

        .data
        .balign 64
words:  .word 1, 1, 1, 1, 1, 1, 1, 1, 1, 1, 1, 1, 1, 1, 1, 1, 1, 1, 1, 1, 1, 1

        .text
        la a0, words
        li a2, 20
        li a3, 7
# The number of words left is in `a2`. `vsetvli` returns in `t0`, and in `vl`, how many this iteration processes.
next:   vsetvli t0, a2, e32, m1, ta, ma
# All `vl` elements become 7. In the last iteration these are four, and the others are the tail.
        vmv.v.x v8, a3
        vse32.v v8, (a0)
# The next strip starts after this one: four bytes for each element.
        slli t1, t0, 2
        add a0, a0, t1
# Subtract the processed words.
        sub a2, a2, t0
# Repeat unless none is left. The same instructions processed the last strip; the two words after it are still 1.
        bnez a2, next
        ebreak

#> step 60
