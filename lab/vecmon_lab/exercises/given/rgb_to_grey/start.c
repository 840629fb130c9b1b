#include <riscv_vector.h>

/* greys: address of the greys
 * pixels: address of the pixels
 * count: their count */
void answer(uint8_t *greys, const uint8_t *pixels,
            size_t count)
{
}
