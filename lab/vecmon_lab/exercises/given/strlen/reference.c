#include <stddef.h>
#include <stdint.h>

/* A byte at a time. */
size_t answer(const uint8_t *text)
{
    size_t length = 0;
    while (text[length])
        length++;
    return length;
}
