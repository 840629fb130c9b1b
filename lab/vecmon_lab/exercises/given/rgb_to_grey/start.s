# a0: address of the greys
# a1: address of the pixels
# a2: their count
        ret
