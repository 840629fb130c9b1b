#include "vecmon.h"
/* Writes 20 lines of 200 bytes. */
static char line[200];
int main(void)
{
    for (int i = 0; i < 200; i++)
        line[i] = i == 199 ? '\n' : 'a' + i % 26;
    for (int n = 0; n < 20; n++)
        put(line, sizeof line);
    return 0;
}
