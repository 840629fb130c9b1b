#include <riscv_vector.h>

size_t answer(const int16_t *numbers, size_t count, int16_t least, int16_t most)
{
    size_t found = 0;
    for (size_t vl; count > 0; count -= vl, numbers += vl) {
        vl = __riscv_vsetvl_e16m8(count);
        vint16m8_t each = __riscv_vle16_v_i16m8(numbers, vl);
        vbool2_t below = __riscv_vmslt_vx_i16m8_b2(each, least, vl), above = __riscv_vmsgt_vx_i16m8_b2(each, most, vl);
        found += __riscv_vcpop_m_b2(__riscv_vmnor_mm_b2(below, above, vl), vl);
    }
    return found;
}
