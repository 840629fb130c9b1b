#include <riscv_vector.h>

int32_t answer(const int8_t *first, const int8_t *second, size_t count)
{
    vint32m1_t sum = __riscv_vmv_s_x_i32m1(0, 1);
    for (size_t vl; count > 0; count -= vl, first += vl, second += vl) {
        vl = __riscv_vsetvl_e8m4(count);
        vint8m4_t one = __riscv_vle8_v_i8m4(first, vl), other = __riscv_vle8_v_i8m4(second, vl);
        sum = __riscv_vwredsum_vs_i16m8_i32m1(__riscv_vwmul_vv_i16m8(one, other, vl), sum, vl);
    }
    return __riscv_vmv_x_s_i32m1_i32(sum);
}
