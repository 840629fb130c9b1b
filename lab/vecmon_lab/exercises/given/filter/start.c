#include <riscv_vector.h>

/* to: address of the result
 * from: address of the numbers
 * count: their count
 * bound: the result has the greater numbers
 * returns the count of the result */
size_t answer(int32_t *to, const int32_t *from,
              size_t count, int32_t bound)
{
    return 0;
}
