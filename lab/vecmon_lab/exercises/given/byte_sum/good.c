#include <riscv_vector.h>

uint64_t answer(const uint8_t *bytes, size_t count)
{
    uint64_t sum = 0;
    vuint16m1_t zero = __riscv_vmv_s_x_u16m1(0, 1);
    for (size_t vl; count > 0; count -= vl, bytes += vl) {
        vl = __riscv_vsetvl_e8m8(count);
        sum += __riscv_vmv_x(__riscv_vwredsumu_vs_u8m8_u16m1(__riscv_vle8_v_u8m8(bytes, vl), zero, vl));
    }
    return sum;
}
