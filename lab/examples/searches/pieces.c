/* Writes the squares of 0 to 199, a line each, in pieces of up to 1,000 bytes. Most of them never come out. */
#include <stddef.h>

static char piece[1000];

static long call(long number, long first, long second, long third)
{
    register long a7 __asm__("a7") = number;
    register long a0 __asm__("a0") = first;
    register long a1 __asm__("a1") = second;
    register long a2 __asm__("a2") = third;
    __asm__ volatile("ecall" : "+r"(a0) : "r"(a7), "r"(a1), "r"(a2) : "memory");
    return a0;
}

__attribute__((noinline)) static void write(const char *bytes, size_t count)
{
    call(64, 1, (long)bytes, (long)count);
}

static size_t decimal(unsigned number, char *to)
{
    char digits[10];
    size_t count = 0;
    do
        digits[count++] = '0' + number % 10;
    while (number /= 10);
    for (size_t i = 0; i < count; i++)
        to[i] = digits[count - 1 - i];
    return count;
}

void _start(void)
{
    size_t used = 0;
    for (unsigned i = 0; i < 200; i++) {
        used += decimal(i * i, piece + used);
        piece[used++] = '\n';
        if (used > sizeof piece - 11) {
            write(piece, used);
            used = 0;
        }
    }
    write(piece, used);
    call(93, 0, 0, 0);
}
