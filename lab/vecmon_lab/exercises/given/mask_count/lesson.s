## How many letters, and where the first space is
# A text of 29 characters: count the letters `a` to `z`, and find the first space.

        .data
text:   .ascii "Vectors count 29 at a time..."

        .text
        la a0, text
        li a1, 29
        vsetvli t0, a1, e8, m1, ta, ma
        vle8.v v8, (a0)
# A comparison makes a mask: bit i is 1 if element i is a space, which is 32.
        li t1, 32
        vmseq.vx v1, v8, t1
# Count the bits, and find the first. Bits from `vl` on are ignored. `vfirst.m` returns -1 if there is none.
        vcpop.m a2, v1
        vfirst.m a3, v1
# Small letters are 97 to 122. One mask has the characters below 97, another those above 122.
        li t1, 97
        vmsltu.vx v2, v8, t1
        li t1, 122
        vmsgtu.vx v3, v8, t1
# A character in neither mask is a small letter: `vmnor.mm` has a 1 where both have a 0.
        vmnor.mm v4, v2, v3
        vcpop.m a4, v4
        ebreak

#> step 40
