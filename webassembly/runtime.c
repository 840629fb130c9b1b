// The functions that the programs call on WebAssembly: a heap, and the system's calls by functions of the host.
//
// The module of the program was compiled for x86-64, where sizes and addresses have 64 bits; these functions are for wasm32. A function of
// the host returns a negative error number of Linux for a failure. The kit's clang has no headers for wasm32.
typedef __UINT8_TYPE__ uint8_t;
typedef __UINT16_TYPE__ uint16_t;
typedef __INT32_TYPE__ int32_t;
typedef __UINT32_TYPE__ uint32_t;
typedef __INT64_TYPE__ int64_t;
typedef __UINT64_TYPE__ uint64_t;
typedef __UINTPTR_TYPE__ uintptr_t;

#define HOST(name) __attribute__((import_module("host"), import_name(#name)))

HOST(argument) int32_t host_argument(uint32_t index, uint8_t *bytes, uint32_t size); // its length, even above size; -1: no such argument
HOST(open) int32_t host_open(const uint8_t *path, int32_t flags, int32_t mode);
HOST(read) int32_t host_read(int32_t file, uint8_t *bytes, uint32_t size);
HOST(write) int32_t host_write(int32_t file, const uint8_t *bytes, uint32_t size);
HOST(close) int32_t host_close(int32_t file);
HOST(seek) int64_t host_seek(int32_t file, int64_t offset, int32_t whence);
HOST(truncate) int32_t host_truncate(int32_t file, int64_t size);
HOST(stat) int32_t host_stat(const uint8_t *path, uint64_t *numbers); // device, file number, mode and size
HOST(link) int32_t host_link(const uint8_t *path, uint8_t *target, uint32_t size);

enum { ALIGNMENT = 16, HEADER = 16, PAGE = 65536, MOST_AT_ONCE = 1 << 30 };
enum { NONE = -1, TOO_LONG = -2 }; // instead of the length of an argument

// The heap. Blocks are consecutive, and only the last one can grow, shrink or be freed: the machine takes its memory once. The header
// before a block has its size in bytes.
extern uint8_t __heap_base[];
static uintptr_t top, end; // of the blocks, and of the memory

struct tried {
    int64_t ok, pointer;
};

static uint64_t *size_of(uintptr_t block)
{
    return (uint64_t *)(block - HEADER);
}

// Makes the last block at `block`, or after memory that the host has taken meanwhile. Returns 0 if there is no memory.
static uintptr_t place(uintptr_t block, uint64_t size)
{
    size = (size + ALIGNMENT - 1) & ~(uint64_t)(ALIGNMENT - 1);
    if (size > ~0u - block)
        return 0;
    if (block + size > end) {
        uintptr_t pages = (block + (uintptr_t)size - end + PAGE - 1) / PAGE, old = __builtin_wasm_memory_grow(0, pages);
        if (old == (uintptr_t)-1)
            return 0;
        int is_next = old * PAGE == end;
        end = (old + pages) * PAGE;
        if (!is_next)
            return place(old * PAGE + HEADER, size);
    }
    *size_of(block) = size;
    top = block + (uintptr_t)size;
    return block;
}

static struct tried tried(uintptr_t block)
{
    return (struct tried){block != 0, block ? block : ALIGNMENT};
}

struct tried rattle_alloc(uint64_t size, uint64_t alignment)
{
    if (!top) {
        top = ((uintptr_t)__heap_base + ALIGNMENT - 1) & ~(uintptr_t)(ALIGNMENT - 1);
        end = ((uintptr_t)__heap_base + PAGE - 1) / PAGE * PAGE;
    }
    return alignment > ALIGNMENT ? tried(0) : tried(place(top + HEADER, size ? size : 1));
}

struct tried rattle_realloc(uint8_t *old, uint64_t old_size, uint64_t size, uint64_t alignment)
{
    uintptr_t block = (uintptr_t)old;
    uint64_t space = *size_of(block);
    if (size <= space)
        return tried(block);
    uintptr_t new = place(block + space == top ? block : top + HEADER, size);
    if (new && new != block)
        __builtin_memcpy((uint8_t *)new, old, (uintptr_t)(old_size < space ? old_size : space));
    return tried(new);
}

void rattle_dealloc(uint8_t *block)
{
    if (block && (uintptr_t)block + *size_of((uintptr_t)block) == top)
        top = (uintptr_t)block - HEADER;
}

// Files, arguments and error numbers, as on Linux.
static int32_t error;

static int64_t result(int64_t number)
{
    if (number >= 0)
        return number;
    error = (int32_t)-number;
    return -1;
}

static uint32_t at_once(int64_t size)
{
    return size > MOST_AT_ONCE ? MOST_AT_ONCE : (uint32_t)size;
}

void rattle_set_errno(int32_t number)
{
    error = number;
}

int32_t rattle_errno(void)
{
    return error;
}

int64_t rattle_arg(int64_t index, uint8_t *bytes, int64_t size)
{
    int32_t length = index > MOST_AT_ONCE ? NONE : host_argument((uint32_t)index, bytes, at_once(size));
    return length > size ? TOO_LONG : length;
}

int64_t rattle_env_at(int64_t index, uint8_t *bytes, int64_t size)
{
    return NONE;
}

int64_t rattle_env(uint8_t *name, uint8_t *bytes, int64_t size)
{
    return NONE;
}

int32_t open(const uint8_t *path, int32_t flags, ...)
{
    enum { CREATE = 0100 };
    __builtin_va_list more;
    __builtin_va_start(more, flags);
    int32_t mode = flags & CREATE ? __builtin_va_arg(more, int32_t) : 0;
    __builtin_va_end(more);
    return (int32_t)result(host_open(path, flags, mode));
}

int64_t read(int32_t file, uint8_t *bytes, int64_t size)
{
    return result(host_read(file, bytes, at_once(size)));
}

int64_t write(int32_t file, const uint8_t *bytes, int64_t size)
{
    return result(host_write(file, bytes, at_once(size)));
}

int64_t __write(int32_t file, const uint8_t *bytes, int64_t size)
{
    return write(file, bytes, size);
}

int32_t close(int32_t file)
{
    return (int32_t)result(host_close(file));
}

int64_t lseek(int32_t file, int64_t offset, int32_t whence)
{
    return result(host_seek(file, offset, whence));
}

int32_t ftruncate(int32_t file, int64_t size)
{
    return (int32_t)result(host_truncate(file, size));
}

struct statx {
    uint32_t mask, block_size;
    uint64_t attributes;
    uint32_t links, user, group;
    uint16_t mode, spare;
    uint64_t number, size, blocks, more_attributes, times[8];
    uint32_t of_device[2], device_major, device_minor;
    uint64_t rest[14];
};
_Static_assert(sizeof(struct statx) == 256, "a struct statx of Linux has 256 bytes");

int32_t statx(int32_t folder, const uint8_t *path, int32_t flags, int32_t mask, struct statx *found)
{
    uint64_t numbers[4];
    int32_t status = host_stat(path, numbers);
    *found = (struct statx){0};
    if (status < 0)
        return (int32_t)result(status);
    found->mask = 0x7ff; // the numbers of POSIX's stat
    found->device_minor = (uint32_t)numbers[0];
    found->device_major = (uint32_t)(numbers[0] >> 32);
    found->number = numbers[1];
    found->mode = (uint16_t)numbers[2];
    found->size = numbers[3];
    return 0;
}

int64_t readlink(const uint8_t *path, uint8_t *target, int64_t size)
{
    return result(host_link(path, target, at_once(size)));
}

int64_t __sysv_signal(int32_t number, int64_t handler)
{
    return 0; // the host has no signals
}

int32_t __xpg_strerror_r(int32_t number, uint8_t *text, int64_t size)
{
    enum { RANGE = 34 };
    if (size < 2)
        return RANGE;
    text[0] = '?';
    text[1] = 0;
    return 0;
}

// A proved program checks the features of an x86-64 processor when it starts. WebAssembly needs none of them, so all are present.
const void *__x86_get_cpuid_feature_leaf(int32_t leaf)
{
    static const uint32_t all[8] = {~0u, ~0u, ~0u, ~0u, ~0u, ~0u, ~0u, ~0u};
    return all;
}

// 128-bit shifts and products, which LLVM calls.
typedef unsigned __int128 uint128_t;
typedef union {
    uint128_t whole;
    struct {
        uint64_t low, high;
    } half;
} halves;

uint128_t __ashlti3(uint128_t number, int32_t count)
{
    halves of = {number}, shifted;
    shifted.half.low = count >= 64 ? 0 : of.half.low << count;
    shifted.half.high = count >= 64 ? of.half.low << (count - 64)
                        : count     ? of.half.high << count | of.half.low >> (64 - count)
                                    : of.half.high;
    return shifted.whole;
}

uint128_t __lshrti3(uint128_t number, int32_t count)
{
    halves of = {number}, shifted;
    shifted.half.high = count >= 64 ? 0 : of.half.high >> count;
    shifted.half.low = count >= 64 ? of.half.high >> (count - 64)
                       : count     ? of.half.low >> count | of.half.high << (64 - count)
                                   : of.half.low;
    return shifted.whole;
}

uint128_t __ashrti3(uint128_t number, int32_t count)
{
    halves of = {number}, shifted;
    int64_t high = (int64_t)of.half.high;
    shifted.half.high = (uint64_t)(count >= 64 ? high >> 63 : high >> count);
    shifted.half.low = count >= 64 ? (uint64_t)(high >> (count - 64))
                       : count     ? of.half.low >> count | of.half.high << (64 - count)
                                   : of.half.low;
    return shifted.whole;
}

uint128_t __multi3(uint128_t left, uint128_t right)
{
    halves x = {left}, y = {right}, product;
    uint64_t mask = ~0u, x_low = x.half.low & mask, x_high = x.half.low >> 32;
    uint64_t y_low = y.half.low & mask, y_high = y.half.low >> 32;
    uint64_t low = x_low * y_low, middle = x_high * y_low + (low >> 32), other = x_low * y_high + (middle & mask);
    product.half.low = (low & mask) | other << 32;
    product.half.high = x_high * y_high + (middle >> 32) + (other >> 32);
    product.half.high += x.half.low * y.half.high + x.half.high * y.half.low;
    return product.whole;
}

int32_t main(void);

__attribute__((export_name("run"))) int32_t run(void)
{
    return main();
}
