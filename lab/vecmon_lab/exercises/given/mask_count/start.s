# a0: address of the numbers
# a1: their count
# a2: the least number to count
# a3: the greatest number to count
# return in a0: the count
        ret
