#include <riscv_vector.h>

/* bytes: address of the bytes
 * count: their count
 * returns their sum */
uint64_t answer(const uint8_t *bytes, size_t count)
{
    return 0;
}
