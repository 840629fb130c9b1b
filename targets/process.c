// Functions of the kit's C library that the programs call, for all native targets: arguments and error numbers of the process.
//
// ORIGIN is a text about the module that the program is built from; the section .comment has it (tools/building/native_program.py).
#include "process.h"

#include <errno.h>
#include <string.h>

__asm__(".ident \"" ORIGIN "\"");

enum { MISSING = -1, TOO_LONG = -2 }; // instead of the length of an argument

static uint64_t argument_count;
static char **arguments;

void save_arguments(int count, char **all)
{
    argument_count = (uint64_t)count;
    arguments = all;
}

// Writes an argument without its zero byte, and returns its length. If it is longer than `size`, writes its first bytes.
int64_t rattle_arg(uint64_t index, uint8_t *bytes, uint64_t size)
{
    if (index >= argument_count)
        return MISSING;
    uint64_t length = strlen(arguments[index]);
    memcpy(bytes, arguments[index], length < size ? length : size);
    return length > size ? TOO_LONG : (int64_t)length;
}

// The programs read no variable of the environment; a library that is linked to them names these functions.
int64_t rattle_env(const uint8_t *name, uint8_t *bytes, uint64_t size)
{
    (void)name, (void)bytes, (void)size;
    return MISSING;
}

int64_t rattle_env_at(uint64_t index, uint8_t *bytes, uint64_t size)
{
    (void)index, (void)bytes, (void)size;
    return MISSING;
}

void rattle_set_errno(int32_t number)
{
    errno = number;
}

int32_t rattle_errno(void)
{
    return errno;
}

#if !defined __x86_64__ || !defined __linux__ // else the C library has this function
// A proved program checks the features of an x86-64 processor when it starts. The target has its own code, so all are present.
const void *__x86_get_cpuid_feature_leaf(uint32_t leaf)
{
    (void)leaf;
    static const uint32_t all[8] = {~0u, ~0u, ~0u, ~0u, ~0u, ~0u, ~0u, ~0u};
    return all;
}
#endif
