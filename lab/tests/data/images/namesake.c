#include "vecmon.h"

extern unsigned other(unsigned number);
unsigned numbers[2] = {5, 7};

static __attribute__((noinline)) unsigned scaled(unsigned number)
{
    return 3 * number;
}

int main(void)
{
    return (int)(scaled(numbers[0]) + other(numbers[1]));
}
