static __attribute__((noinline)) unsigned scaled(unsigned number)
{
    return 5 * number + 1;
}

unsigned other(unsigned number)
{
    return scaled(number);
}
