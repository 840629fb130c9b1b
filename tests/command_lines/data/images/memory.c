/* The functions that compilers call by themselves: to copy a struct, to clear an array. */
#include <stddef.h>

void *memcpy(void *restrict to, const void *restrict from, size_t count)
{
    char *out = to;
    for (const char *in = from; count > 0; count--)
        *out++ = *in++;
    return to;
}

void *memmove(void *to, const void *from, size_t count)
{
    char *out = to;
    const char *in = from;
    if (out <= in)
        return memcpy(to, from, count);
    while (count-- > 0)
        out[count] = in[count];
    return to;
}

void *memset(void *to, int byte, size_t count)
{
    for (char *out = to; count > 0; count--)
        *out++ = byte;
    return to;
}

int memcmp(const void *left, const void *right, size_t count)
{
    const unsigned char *one = left;
    const unsigned char *other = right;
    for (; count > 0; count--, one++, other++)
        if (*one != *other)
            return *one - *other;
    return 0;
}
