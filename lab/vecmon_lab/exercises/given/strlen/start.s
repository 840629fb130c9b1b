# a0: address of the string
# return in a0: its length
        ret
