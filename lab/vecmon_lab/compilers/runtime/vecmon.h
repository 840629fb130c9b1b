/* The calls of a program in the lab's machine: output, and exit. */
#ifndef VECMON_H
#define VECMON_H

#include <stddef.h>
#include <stdint.h>

/* Writes bytes to the output, by as many calls as they need. Returns the number of bytes written: count, or less if some
   can't be read. If none of them can be read, returns -14. */
long put(const void *bytes, size_t count);

/* Writes the digits of a number in a base from 2 to 16, after a minus sign if it is negative. Returns what put returns. */
static inline __attribute__((noinline)) long put_digits(unsigned long number, unsigned base, int is_negative)
{
    char text[65]; /* a sign, and 64 digits in base 2 */
    size_t first = sizeof text;
    do
        text[--first] = "0123456789abcdef"[number % base];
    while (number /= base);
    if (is_negative)
        text[--first] = '-';
    return put(text + first, sizeof text - first);
}

/* Writes a signed number in decimal digits. Returns what put returns, as the next two do. */
static inline long put_int(long number)
{
    return put_digits(number < 0 ? -(unsigned long)number : (unsigned long)number, 10, number < 0);
}

/* Writes an unsigned number in decimal digits. */
static inline long put_uint(unsigned long number)
{
    return put_digits(number, 10, 0);
}

/* Writes a number in hexadecimal digits, without 0x. */
static inline long put_hex(unsigned long number)
{
    return put_digits(number, 16, 0);
}

/* Ends the program with a status. */
_Noreturn void exit(int status);

void *memcpy(void *restrict to, const void *restrict from, size_t count);
void *memset(void *to, int byte, size_t count);

#endif
