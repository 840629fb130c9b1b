#include "vecmon.h"
#include <riscv_vector.h>

static int32_t x[10], y[10];

static void saxpy(size_t count, int32_t factor, const int32_t *from, int32_t *to)
{
    for (size_t length; count > 0; count -= length, from += length, to += length) {
        length = __riscv_vsetvl_e32m1(count);
        vint32m1_t sum = __riscv_vle32_v_i32m1(to, length);
        sum = __riscv_vmacc_vx_i32m1(sum, factor, __riscv_vle32_v_i32m1(from, length), length);
        __riscv_vse32_v_i32m1(to, sum, length);
    }
}

int main(void)
{
    for (int i = 0; i < 10; i++) {
        x[i] = i;
        y[i] = 100 - i;
    }
    saxpy(10, 3, x, y);
    put(y, sizeof y);
    return 0;
}
