/* Functions that a compiler calls by itself; they are linked only to a source that needs one. */
#include <stddef.h>

__attribute__((weak)) void *memmove(void *to, const void *from, size_t count)
{
    unsigned char *target = to;
    const unsigned char *source = from;
    if (target <= source)
        for (size_t i = 0; i < count; i++)
            target[i] = source[i];
    else
        while (count--)
            target[count] = source[count];
    return to;
}

__attribute__((weak)) int memcmp(const void *left, const void *right, size_t count)
{
    const unsigned char *one = left;
    const unsigned char *other = right;
    for (; count > 0; count--, one++, other++)
        if (*one != *other)
            return *one - *other;
    return 0;
}
