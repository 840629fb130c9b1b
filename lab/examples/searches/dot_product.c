/* Multiplies 100 numbers by 100 others, adds up the products, and exits with 1 if the sum is wrong: a mistake is in it. */
#include <riscv_vector.h>
#include <stddef.h>

static unsigned dot_product(const unsigned *first, const unsigned *second, size_t count)
{
    size_t most = __riscv_vsetvlmax_e32m2();
    vuint32m2_t sums = __riscv_vmv_v_x_u32m2(0, most);
    for (size_t length; count > 0; count -= length, first += length, second += length) {
        length = __riscv_vsetvl_e32m2(count);
        vuint32m2_t factors = __riscv_vle32_v_u32m2(first, length);
        sums = __riscv_vmacc_vv_u32m2(sums, factors, __riscv_vle32_v_u32m2(second, length), length);
    }
    vuint32m1_t zero = __riscv_vmv_s_x_u32m1(0, 1);
    return __riscv_vmv_x_s_u32m1_u32(__riscv_vredsum_vs_u32m2_u32m1(sums, zero, most));
}

void _start(void)
{
    static unsigned numbers[100], others[100];
    for (unsigned i = 0; i < 100; i++) {
        numbers[i] = i;
        others[i] = 99 - i;
    }
    register long a7 __asm__("a7") = 93;
    register long a0 __asm__("a0") = dot_product(numbers, others, 100) != 161700;
    __asm__ volatile("ecall" : : "r"(a7), "r"(a0));
}
