#include "vecmon.h"

/* The sum of some numbers; not static, so it also has a copy that nothing calls. */
unsigned total(const unsigned *from, unsigned count)
{
    unsigned sum = 0;
    for (unsigned i = 0; i < count; i++)
        sum += from[i];
    return sum;
}

static unsigned numbers[10];

int main(void)
{
    for (unsigned i = 0; i < 10; i++)
        numbers[i] = i * i;
    unsigned first = total(numbers, 5);
    put(&first, sizeof first);
    return (int)total(numbers, 10);
}
