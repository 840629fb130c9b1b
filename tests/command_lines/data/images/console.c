/* Standard output and exit for programs with picolibc. */
#include <stdio.h>

static long call(long number, long first, long second, long third)
{
    register long a7 __asm__("a7") = number;
    register long a0 __asm__("a0") = first;
    register long a1 __asm__("a1") = second;
    register long a2 __asm__("a2") = third;
    __asm__ volatile("ecall" : "+r"(a0) : "r"(a7), "r"(a1), "r"(a2) : "memory");
    return a0;
}

static int put(char byte, FILE *file)
{
    (void)file;
    return call(64, 1, (long)&byte, 1) == 1 ? (unsigned char)byte : EOF;
}

static FILE console = FDEV_SETUP_STREAM(put, NULL, NULL, _FDEV_SETUP_WRITE);
FILE *const stdout = &console;

void _exit(int status)
{
    for (;;)
        call(93, status, 0, 0);
}
