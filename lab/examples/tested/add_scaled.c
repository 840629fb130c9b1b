#include "vecmon.h"
#include <riscv_vector.h>

/* Adds a multiple of a vector to another one, modulo 2^32. */
void add_scaled(size_t count, int32_t factor, const int32_t *from, int32_t *to)
{
    for (size_t length; count > 0; count -= length, from += length, to += length) {
        length = __riscv_vsetvl_e32m2(count);
        vint32m2_t sum = __riscv_vle32_v_i32m2(to, length);
        sum = __riscv_vmacc_vx_i32m2(sum, factor, __riscv_vle32_v_i32m2(from, length), length);
        __riscv_vse32_v_i32m2(to, sum, length);
    }
}
