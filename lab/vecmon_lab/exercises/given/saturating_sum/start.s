# a0: address of the sums
# a1: address of the first numbers
# a2: address of the second numbers
# a3: count of the sums
        ret
