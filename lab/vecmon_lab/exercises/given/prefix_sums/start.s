# a0: address of the sums
# a1: address of the numbers
# a2: their count
        ret
