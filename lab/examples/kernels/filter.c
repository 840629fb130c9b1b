//# Those numbers that are large enough, close together
// A comparison sets a mask, vcompress.vm packs the elements that it selects, and vcpop.m counts them.
//> step 256
//> step 256
//> out
#include "vecmon.h"
#include <riscv_vector.h>

#define COUNT 40

static int32_t numbers[COUNT], kept[COUNT];

static size_t filter(size_t count, int32_t limit, const int32_t *from, int32_t *to)
{
    const int32_t *first = to;
    for (size_t length; count > 0; count -= length, from += length) {
        length = __riscv_vsetvl_e32m2(count);
        vint32m2_t next = __riscv_vle32_v_i32m2(from, length);
        vbool16_t is_kept = __riscv_vmsgt_vx_i32m2_b16(next, limit, length);
        size_t number = __riscv_vcpop_m_b16(is_kept, length);
        __riscv_vse32_v_i32m2(to, __riscv_vcompress_vm_i32m2(next, is_kept, length), number);
        to += number;
    }
    return (size_t)(to - first);
}

int main(void)
{
    for (int i = 0; i < COUNT; i++)
        numbers[i] = i * 7919 % 100;
    size_t number = filter(COUNT, 60, numbers, kept);
    put(kept, number * sizeof *kept);
    return 0;
}
