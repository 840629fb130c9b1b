#include <riscv_vector.h>

/* numbers: address of the numbers
 * flags: address of their bytes
 * count: count of the numbers
 * most: the largest magnitude */
void answer(int32_t *numbers, const uint8_t *flags,
            size_t count, int32_t most)
{
}
