#include <riscv_vector.h>

void answer(int32_t *to, const int32_t *from, size_t count)
{
    size_t vl = __riscv_vsetvl_e32m1(count);
    vint32m1_t numbers = __riscv_vle32_v_i32m1(from, vl);
    __riscv_vse32_v_i32m1(to, __riscv_vadd_vv_i32m1(numbers, numbers, vl), vl);
}
