#include <riscv_vector.h>

/* numbers: address of the numbers
 * count: their count
 * least, most: the least and greatest to count
 * returns the count */
size_t answer(const int16_t *numbers, size_t count,
              int16_t least, int16_t most)
{
    return 0;
}
