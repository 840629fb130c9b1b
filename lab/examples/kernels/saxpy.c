//# A multiple of one vector is added to another
// Each iteration processes as many elements as a register group holds, and the last one those that are left.
//> step 200
//> out
#include "vecmon.h"
#include <riscv_vector.h>

#define COUNT 37

static int32_t x[COUNT], y[COUNT];

static void saxpy(size_t count, int32_t factor, const int32_t *from, int32_t *to)
{
    for (size_t length; count > 0; count -= length, from += length, to += length) {
        length = __riscv_vsetvl_e32m2(count);
        vint32m2_t sum = __riscv_vle32_v_i32m2(to, length);
        sum = __riscv_vmacc_vx_i32m2(sum, factor, __riscv_vle32_v_i32m2(from, length), length);
        __riscv_vse32_v_i32m2(to, sum, length);
    }
}

int main(void)
{
    for (int i = 0; i < COUNT; i++) {
        x[i] = i;
        y[i] = 1000 - i;
    }
    saxpy(COUNT, 3, x, y);
    put(y, sizeof y);
    return 0;
}
