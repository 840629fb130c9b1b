#include <stddef.h>
#include <stdint.h>

/* The sum of two numbers at a time, and its bounds, without vectors. */
void answer(int16_t *sums, const int16_t *first, const int16_t *second, size_t count)
{
    for (size_t i = 0; i < count; i++) {
        int sum = first[i] + second[i];
        sums[i] = (int16_t)(sum > INT16_MAX ? INT16_MAX : sum < INT16_MIN ? INT16_MIN : sum);
    }
}
