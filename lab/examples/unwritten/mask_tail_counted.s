# Counts the positive numbers among three as if there were eight: a mask's tail may have any value, even with `tu`.
        la a1, three
        vsetivli zero, 3, e32, m1, tu, mu
        vle32.v v8, (a1)
mask:   vmsgt.vx v9, v8, zero
        vsetivli zero, 8, e32, m1, tu, mu
count:  vcpop.m a0, v9
        li a7, 93
end:    ecall
        .data
three:  .word 5, -1, 7
