#include <riscv_vector.h>

/* to: address of the result
 * from: address of the bytes
 * count: their count
 * table: address of the table */
void answer(uint8_t *to, const uint8_t *from, size_t count,
            const uint8_t *table)
{
}
