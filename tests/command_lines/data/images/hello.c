/* Prints with picolibc. */
#include <errno.h>
#include <stdio.h>
#include <stdlib.h>
#include <string.h>

int main(void)
{
    char *text = malloc(1000);
    memset(text, 'x', 999);
    text[999] = 0;
    long most = strtol("99999999999999999999", NULL, 10);
    printf("%zu %ld %d\n", strlen(text), most, errno == ERANGE);
    return 7;
}
