# a0: address of the numbers
# a1: address of their bytes
# a2: count of the numbers
# a3: the largest magnitude
        ret
