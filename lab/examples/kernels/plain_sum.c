//# A loop that the compiler vectorises
// The source has no intrinsics. With the options O2-scalar the loop stays scalar.
//> step 256
//> step 256
//> out
#include "vecmon.h"

#define COUNT 100

static uint32_t numbers[COUNT];

__attribute__((noinline)) static uint32_t sum(const uint32_t *from, size_t count)
{
    uint32_t total = 0;
    for (size_t i = 0; i < count; i++)
        total += from[i];
    return total;
}

int main(void)
{
    for (uint32_t i = 0; i < COUNT; i++)
        numbers[i] = i * i;
    uint32_t total = sum(numbers, COUNT);
    put(&total, sizeof total);
    return 0;
}
