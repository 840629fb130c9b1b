# a0: address of the result
# a1: address of the bytes
# a2: their count
# a3: address of the table
        ret
