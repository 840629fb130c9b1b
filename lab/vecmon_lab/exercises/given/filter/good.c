#include <riscv_vector.h>

size_t answer(int32_t *to, const int32_t *from, size_t count, int32_t bound)
{
    size_t found = 0;
    for (size_t vl; count > 0; count -= vl, from += vl) {
        vl = __riscv_vsetvl_e32m4(count);
        vint32m4_t numbers = __riscv_vle32_v_i32m4(from, vl);
        vbool8_t is_greater = __riscv_vmsgt_vx_i32m4_b8(numbers, bound, vl);
        size_t more = __riscv_vcpop_m_b8(is_greater, vl);
        __riscv_vse32_v_i32m4(to + found, __riscv_vcompress_vm_i32m4(numbers, is_greater, vl), more);
        found += more;
    }
    return found;
}
