#include <riscv_vector.h>

/* sums: address of the sums
 * first, second: addresses of the numbers
 * count: count of the sums */
void answer(int16_t *sums, const int16_t *first,
            const int16_t *second, size_t count)
{
}
