#include "vecmon.h"
/* Writes 200 bytes at a time, and has no end. */
static char line[200];
int main(void)
{
    for (;;) {
        put(line, sizeof line);
        for (volatile int i = 0; i < 20; i++)
            ;
    }
}
