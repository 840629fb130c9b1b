#include <riscv_vector.h>

void answer(int16_t *sums, const int16_t *first, const int16_t *second, size_t count)
{
    for (size_t vl; count > 0; count -= vl, first += vl, second += vl, sums += vl) {
        vl = __riscv_vsetvl_e16m8(count);
        vint16m8_t one = __riscv_vle16_v_i16m8(first, vl), other = __riscv_vle16_v_i16m8(second, vl);
        __riscv_vse16_v_i16m8(sums, __riscv_vsadd_vv_i16m8(one, other, vl), vl);
    }
}
