// Functions of the kit's C library that the programs call, on Linux: the start and the heap. Linux's C library has all others.
#include "process.h"

#include <stdlib.h>

enum { ALIGNMENT = 16 };

struct allocation {
    int64_t succeeded;
    uint64_t block; // its address, which is never 0
};

// glibc calls constructors with the arguments of the process.
__attribute__((constructor)) static void start(int count, char **all)
{
    save_arguments(count, all);
}

static struct allocation allocation(void *block)
{
    return (struct allocation){block != NULL, block ? (uintptr_t)block : ALIGNMENT};
}

struct allocation rattle_alloc(uint64_t size, uint64_t alignment)
{
    return allocation(malloc(size ? size : alignment));
}

struct allocation rattle_realloc(void *old, uint64_t old_size, uint64_t size, uint64_t alignment)
{
    (void)old_size;
    return allocation(realloc(old, size ? size : alignment));
}

void rattle_dealloc(void *block)
{
    free(block);
}
