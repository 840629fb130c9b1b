/* Makes small letters of a text large, and exits with how many of a hundred bytes were small letters.
   It takes a hundred million instructions, and a profile tells why. */
#include <stddef.h>

#define BYTES 5000

static char text[BYTES + 1];

__attribute__((noinline)) static size_t length(const char *from)
{
    size_t bytes = 0;
    while (from[bytes])
        bytes++;
    return bytes;
}

__attribute__((noinline)) static size_t enlarge(char *bytes)
{
    size_t changed = 0;
    for (size_t i = 0; i < length(bytes); i++)
        if (bytes[i] >= 'a' && bytes[i] <= 'z') {
            bytes[i] -= 'a' - 'A';
            changed++;
        }
    return changed;
}

void _start(void)
{
    for (size_t i = 0; i < BYTES; i++)
        text[i] = "Some words of a text, "[i % 22];
    register long a7 __asm__("a7") = 93;
    register long a0 __asm__("a0") = enlarge(text) * 100 / BYTES;
    __asm__ volatile("ecall" : : "r"(a7), "r"(a0));
}
