//# Colours to grey: three fields of a pixel are loaded into three registers at once
// vlseg3e8.v separates red, green and blue. Their weighted sum has 16 bits; the grey is the upper eight.
//> step 256
//> out
#include "vecmon.h"
#include <riscv_vector.h>

#define COUNT 45

static uint8_t pixels[COUNT][3], greys[COUNT];

static void to_grey(size_t count, const uint8_t *from, uint8_t *to)
{
    for (size_t length; count > 0; count -= length, from += 3 * length, to += length) {
        length = __riscv_vsetvl_e8m1(count);
        vuint8m1x3_t colours = __riscv_vlseg3e8_v_u8m1x3(from, length);
        vuint16m2_t sum = __riscv_vwmulu_vx_u16m2(__riscv_vget_v_u8m1x3_u8m1(colours, 0), 77, length);
        sum = __riscv_vwmaccu_vx_u16m2(sum, 150, __riscv_vget_v_u8m1x3_u8m1(colours, 1), length);
        sum = __riscv_vwmaccu_vx_u16m2(sum, 29, __riscv_vget_v_u8m1x3_u8m1(colours, 2), length);
        __riscv_vse8_v_u8m1(to, __riscv_vnsrl_wx_u8m1(sum, 8, length), length);
    }
}

int main(void)
{
    for (int i = 0; i < COUNT; i++) {
        pixels[i][0] = (uint8_t)(5 * i);
        pixels[i][1] = (uint8_t)(255 - 3 * i);
        pixels[i][2] = (uint8_t)(i * i);
    }
    to_grey(COUNT, pixels[0], greys);
    put(greys, sizeof greys);
    return 0;
}
