#include "vecmon.h"
/* Writes 200 zero bytes 20 times, and exits with 1 unless all of them were written. */
static char line[200];
int main(void)
{
    long sum = 0;
    for (int n = 0; n < 20; n++)
        sum += put(line, sizeof line);
    return sum != 4000;
}
