#include <riscv_vector.h>

void answer(int32_t *numbers, const uint8_t *flags, size_t count, int32_t most)
{
    for (size_t vl; count > 0; count -= vl, numbers += vl, flags += vl) {
        vl = __riscv_vsetvl_e32m8(count);
        vbool4_t is_meant = __riscv_vmsne_vx_u8m2_b4(__riscv_vle8_v_u8m2(flags, vl), 0, vl);
        vint32m8_t each = __riscv_vle32_v_i32m8(numbers, vl);
        vbool4_t is_negative = __riscv_vmslt_vx_i32m8_b4_m(is_meant, each, 0, vl);
        each = __riscv_vneg_v_i32m8_mu(__riscv_vmand_mm_b4(is_meant, is_negative, vl), each, each, vl);
        vuint32m8_t magnitude = __riscv_vreinterpret_v_i32m8_u32m8(each); /* of the least number too */
        magnitude = __riscv_vminu_vx_u32m8_mu(is_meant, magnitude, magnitude, (uint32_t)most, vl);
        __riscv_vse32_v_i32m8(numbers, __riscv_vreinterpret_v_u32m8_i32m8(magnitude), vl);
    }
}
