#include <riscv_vector.h>

/* sums: address of the sums
 * from: address of the numbers
 * count: their count */
void answer(int32_t *sums, const int32_t *from,
            size_t count)
{
}
