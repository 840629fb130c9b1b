#include <riscv_vector.h>

/* to: address of the copy
 * from: address of the bytes
 * count: their count */
void answer(uint8_t *to, const uint8_t *from, size_t count)
{
    for (size_t vl; count > 0; count -= vl) {
        vl = __riscv_vsetvl_e8m1(count); /* bytes of this strip */
    }
}
