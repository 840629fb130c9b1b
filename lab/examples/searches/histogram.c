/* Counts 100,000 samples in 16 classes, each with a weight of 1, and puts out the sum of the counts: it should be 100000. */

static struct {
    unsigned counts[16];
    unsigned weight;
} histogram;

/* The next of the numbers that xorshift makes. */
static unsigned next(unsigned number)
{
    number ^= number << 13;
    number ^= number >> 17;
    return number ^ number << 5;
}

/* Counts a sample of 16 bits. */
__attribute__((noinline)) static void add(unsigned sample)
{
    histogram.counts[sample * 16 / 65535] += histogram.weight;
}

/* Puts out a number in decimal, with a newline. */
static void put(unsigned number)
{
    char text[12];
    char *digit = text + sizeof text;
    *--digit = '\n';
    do
        *--digit = '0' + number % 10;
    while (number /= 10);
    register long a7 __asm__("a7") = 64;
    register long a0 __asm__("a0") = 1;
    register char *a1 __asm__("a1") = digit;
    register long a2 __asm__("a2") = text + sizeof text - digit;
    __asm__ volatile("ecall" : "+r"(a0) : "r"(a7), "r"(a1), "r"(a2) : "memory");
}

void _start(void)
{
    unsigned sum = 0, number = 19;
    histogram.weight = 1;
    for (int sample = 0; sample < 100000; sample++) {
        number = next(number);
        add(number >> 16);
    }
    for (int class = 0; class < 16; class++)
        sum += histogram.counts[class];
    put(sum);
    register long a7 __asm__("a7") = 93;
    register long a0 __asm__("a0") = 0;
    __asm__ volatile("ecall" : : "r"(a7), "r"(a0));
}
