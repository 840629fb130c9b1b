## The end of a line, at the end of memory
# A line of text ends with the byte 10. Find it. The line is at the end of a page, and the next page isn't mapped.

        .text
        li a0, 0x20fea
        mv t0, a0
        li t3, 10
# Request as many bytes as a register holds, 32; but the page has only 22 more.
next:   vsetvli t1, zero, e8, m1, ta, ma
# A plain load would fault at element 22. This one sets `vl` to the number of loaded elements: 22.
        vle8ff.v v8, (t0)
        csrr t1, vl
# The following instructions process those 22. A mask of the line ends, and the index of the first:
        vmseq.vx v1, v8, t3
        vfirst.m t2, v1
        bgez t2, found
# If there is none, the next iteration starts after the loaded bytes, so no byte is skipped.
        add t0, t0, t1
        j next
# The index of the first one is relative to this iteration's address.
found:  add t0, t0, t2
        sub a0, t0, a0
        ebreak

#> map 20000 1 r
#> poke 20fea 41206c696e652c20616e6420697473206c6173740a00
#> step 40
