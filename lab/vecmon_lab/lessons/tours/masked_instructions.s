# A mask has a bit for each element, in `v0`. An instruction that ends in `v0.t` works only where the bit is 1.

        .data
prices: .word 120, 80, 250, 40, 99, 310

        .text
        la a0, prices
# Six elements of 32 bits: a register has room for eight, and the last two are the tail.
        vsetivli zero, 6, e32, m1, ta, ma
        vle32.v v8, (a0)
# A comparison writes the mask: a 1 for each price above 100.
        li a1, 100
        vmsgt.vx v0, v8, a1
# Where the mask is 1, 10 is taken off. `ta, ma` leaves open what becomes of the others; this machine leaves them as they are.
        vadd.vi v8, v8, -10, v0.t
# With `tu, mu` all machines leave the tail and the elements that are masked off as they are.
        vsetivli zero, 6, e32, m1, tu, mu
        vadd.vi v8, v8, 1, v0.t
# With the policy `ones` this machine makes the elements that `ta, ma` leaves open all ones, so that a program that uses them fails.
        vsetivli zero, 6, e32, m1, ta, ma
        vadd.vi v8, v8, 1, v0.t
        ebreak

#> step 9
#> policy ones
#> step 40
