#include <riscv_vector.h>

/* first, second: addresses of the arrays
 * count: count of the bytes in each
 * returns the sum of the products */
int32_t answer(const int8_t *first, const int8_t *second,
               size_t count)
{
    return 0;
}
