# a0: address of the result
# a1: address of the numbers
# a2: their count
# a3: the result has the greater numbers
# return in a0: the count of the result
        ret
