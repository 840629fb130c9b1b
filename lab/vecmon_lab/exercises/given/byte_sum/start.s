# a0: address of the bytes
# a1: their count
# return in a0: their sum
        ret
