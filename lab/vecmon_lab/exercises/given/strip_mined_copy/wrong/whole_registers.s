# Whole registers are copied, and so the last one has too much.
        beqz a2, done
next:   vl1re8.v v8, (a1)
        vs1r.v v8, (a0)
        addi a0, a0, 32
        addi a1, a1, 32
        addi a2, a2, -32
        bgtz a2, next
done:   ret
