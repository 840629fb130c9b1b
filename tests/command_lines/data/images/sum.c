/* Sums 100 numbers with vector instructions, and prints the sum. */
#include <riscv_vector.h>
#include <stddef.h>

static long call(long number, long first, long second, long third)
{
    register long a7 __asm__("a7") = number;
    register long a0 __asm__("a0") = first;
    register long a1 __asm__("a1") = second;
    register long a2 __asm__("a2") = third;
    __asm__ volatile("ecall" : "+r"(a0) : "r"(a7), "r"(a1), "r"(a2) : "memory");
    return a0;
}

/* Sums the elements: adds them to the elements of a group of two registers, and then reduces these to one. */
static unsigned sum(const unsigned *elements, size_t count)
{
    size_t most = __riscv_vsetvlmax_e32m2();
    vuint32m2_t sums = __riscv_vmv_v_x_u32m2(0, most);
    for (size_t length; count > 0; count -= length, elements += length) {
        length = __riscv_vsetvl_e32m2(count);
        vuint32m2_t next = __riscv_vle32_v_u32m2(elements, length);
        sums = __riscv_vadd_vv_u32m2_tu(sums, sums, next, length);
    }
    vuint32m1_t zero = __riscv_vmv_s_x_u32m1(0, 1);
    return __riscv_vmv_x_s_u32m1_u32(__riscv_vredsum_vs_u32m2_u32m1(sums, zero, most));
}

void _start(void)
{
    static unsigned squares[100];
    char text[12];
    char *digit = text + sizeof text;
    for (unsigned i = 0; i < 100; i++)
        squares[i] = i * i;
    unsigned rest = sum(squares, 100);
    *--digit = '\n';
    do
        *--digit = '0' + rest % 10;
    while (rest /= 10);
    call(64, 1, (long)digit, text + sizeof text - digit);
    call(93, 0, 0, 0);
}
