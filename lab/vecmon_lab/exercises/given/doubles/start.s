# a0: address of the doubles
# a1: address of the numbers
# a2: their count, 0 to 8
        ret
