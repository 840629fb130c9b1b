#include <riscv_vector.h>

/* to: address of the doubles
 * from: address of the numbers
 * count: their count, 0 to 8 */
void answer(int32_t *to, const int32_t *from, size_t count)
{
}
