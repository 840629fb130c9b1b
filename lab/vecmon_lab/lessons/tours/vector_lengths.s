# A vector instruction works on `vl` elements, as wide as the vector type says. `vsetvli` sets both.

        .text
# A program asks for as many elements as it has left: twenty.
        li a0, 20
# Elements of 32 bits, `e32`, in single registers, `m1`: a register of 256 bits has room for 8, so `vl` becomes 8.
        vsetvli t0, a0, e32, m1, ta, ma
        vid.v v1
# Bytes, `e8`, in groups of two registers, `m2`: there is room for 64, so all twenty are taken at once.
        vsetvli t1, a0, e8, m2, ta, ma
        vid.v v4
# Numbers of 16 bits in a quarter of a register, `mf4`: room for 4. `vsetivli` has the number itself.
        vsetivli t2, 5, e16, mf4, ta, ma
        vid.v v8
# With `zero` as the length, and another register for the result, `vl` becomes as large as there is room: 256 / 16 is 16.
        vsetvli t3, zero, e16, m1, ta, ma
        vid.v v12
# Elements of 64 bits don't fit into an eighth of a register: the type becomes `vill`, and the next instruction is illegal.
        vsetivli t4, 5, e64, mf8, ta, ma
        vid.v v16

#> step 40
