#include <riscv_vector.h>

void answer(uint8_t *to, const uint8_t *from, size_t count, const uint8_t *table)
{
    vuint8m2_t entries = __riscv_vle8_v_u8m2(table, 16);
    for (size_t vl; count > 0; count -= vl, to += vl) {
        vl = __riscv_vsetvl_e8m2(count);
        vuint8m2_t last = __riscv_vle8_v_u8m2(from + count - vl, vl);
        vuint8m2_t places = __riscv_vrsub_vx_u8m2(__riscv_vid_v_u8m2(vl), (uint8_t)(vl - 1), vl);
        vuint8m2_t turned = __riscv_vrgather_vv_u8m2(last, places, vl);
        __riscv_vse8_v_u8m2(to, __riscv_vrgather_vv_u8m2(entries, turned, vl), vl);
    }
}
