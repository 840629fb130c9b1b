#include <riscv_vector.h>

void answer(uint8_t *to, const uint8_t *from, size_t count)
{
    for (size_t vl; count > 0; count -= vl, from += vl, to += vl) {
        vl = __riscv_vsetvl_e8m8(count);
        __riscv_vse8_v_u8m8(to, __riscv_vle8_v_u8m8(from, vl), vl);
    }
}
