#include <riscv_vector.h>

void answer(uint8_t *greys, const uint8_t *dots, size_t count)
{
    for (size_t vl; count > 0; count -= vl, greys += vl, dots += 3 * vl) {
        vl = __riscv_vsetvl_e8m2(count);
        vuint8m2x3_t colours = __riscv_vlseg3e8_v_u8m2x3(dots, vl);
        vuint16m4_t sum = __riscv_vwmulu_vx_u16m4(__riscv_vget_v_u8m2x3_u8m2(colours, 0), 77, vl);
        sum = __riscv_vwmaccu_vx_u16m4(sum, 150, __riscv_vget_v_u8m2x3_u8m2(colours, 1), vl);
        sum = __riscv_vwmaccu_vx_u16m4(sum, 29, __riscv_vget_v_u8m2x3_u8m2(colours, 2), vl);
        __riscv_vse8_v_u8m2(greys, __riscv_vnclipu_wx_u8m2(sum, 8, __RISCV_VXRM_RNE, vl), vl);
    }
}
