#include <riscv_vector.h>

/* text: address of the string
 * returns its length */
size_t answer(const uint8_t *text)
{
    return 0;
}
