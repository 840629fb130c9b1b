# a0, a1: addresses of the arrays
# a2: count of the bytes in each
# return in a0: the sum of the products
        ret
