// Functions of Linux that the programs call, on Windows: the start, files and error texts. Paths and arguments are UTF-8, files are bytes.
#define WIN32_LEAN_AND_MEAN
#include <windows.h> // before the others

#include "process.h"

#include <errno.h>
#include <io.h>
#include <shellapi.h>
#include <stdlib.h>
#include <string.h>
#include <sys/stat.h>

enum { PATH_UNITS = 4096, MOST_AT_ONCE = 1 << 30 };
enum { ACCESS = 03, CREATE = 0100, EXCLUSIVE = 0200, TRUNCATE = 01000, APPEND = 02000 }; // flags of Linux for open
enum { OWN_BINARY = 0x8000, OWN_PRIVATE = 0x80, OWN_CREATE = 0x100, OWN_TRUNCATE = 0x200, OWN_EXCLUSIVE = 0x400, OWN_APPEND = 0x8 };
enum { REGULAR = 0100000, FOLDER = 0040000, CHARACTERS = 0020000, READABLE = 0444 }; // modes of Linux

static const char *const standard_paths[] = {"/dev/stdin", "/dev/stdout", "/dev/stderr"};
enum { STANDARD_FILES = 3 };

static char *in_utf8(const wchar_t *text)
{
    int size = WideCharToMultiByte(CP_UTF8, 0, text, -1, NULL, 0, NULL, NULL);
    char *result = malloc((size_t)size);
    if (!result)
        abort();
    WideCharToMultiByte(CP_UTF8, 0, text, -1, result, size, NULL, NULL);
    return result;
}

// The program's name in messages: that of its file, without folders and without the suffix.
static char *name_of(char *path)
{
    char *name = path;
    for (char *at = path; *at; at++)
        if (*at == '\\' || *at == '/')
            name = at + 1;
    char *suffix = strrchr(name, '.');
    if (suffix)
        *suffix = 0;
    return name;
}

__attribute__((constructor)) static void start(void)
{
    int count = 0;
    wchar_t **all = CommandLineToArgvW(GetCommandLineW(), &count);
    char **texts = calloc((size_t)count + 1, sizeof *texts);
    if (!all || !texts)
        abort();
    for (int index = 0; index < count; index++)
        texts[index] = in_utf8(all[index]);
    texts[0] = name_of(texts[0]);
    save_arguments(count, texts);
    for (int file = 0; file < STANDARD_FILES; file++)
        _setmode(file, OWN_BINARY);
}

// The descriptor of a path such as /dev/stdout; -1 for other paths.
static int standard_file(const char *path)
{
    for (int file = 0; file < STANDARD_FILES; file++)
        if (!strcmp(path, standard_paths[file]))
            return file;
    return -1;
}

// Writes a path for Windows, at most PATH_UNITS long; returns whether it is one.
static int to_windows(const char *path, wchar_t *units)
{
    const char *own = strcmp(path, "/dev/null") ? path : "NUL";
    if (MultiByteToWideChar(CP_UTF8, MB_ERR_INVALID_CHARS, own, -1, units, PATH_UNITS))
        return 1;
    errno = ENOENT;
    return 0;
}

int32_t open(const char *path, int32_t flags, ...)
{
    int file = standard_file(path);
    if (file >= 0)
        return _dup(file);
    wchar_t units[PATH_UNITS];
    if (!to_windows(path, units))
        return -1;
    int own = OWN_BINARY | OWN_PRIVATE | (flags & ACCESS);
    own |= flags & CREATE ? OWN_CREATE : 0;
    own |= flags & EXCLUSIVE ? OWN_EXCLUSIVE : 0;
    own |= flags & TRUNCATE ? OWN_TRUNCATE : 0;
    own |= flags & APPEND ? OWN_APPEND : 0;
    return _wopen(units, own, _S_IREAD | _S_IWRITE);
}

static unsigned at_once(uint64_t size)
{
    return size > MOST_AT_ONCE ? MOST_AT_ONCE : (unsigned)size;
}

int64_t read(int32_t file, void *bytes, uint64_t size)
{
    return _read(file, bytes, at_once(size));
}

int64_t write(int32_t file, const void *bytes, uint64_t size)
{
    return _write(file, bytes, at_once(size));
}

int64_t __write(int32_t file, const void *bytes, uint64_t size)
{
    return write(file, bytes, size);
}

int32_t close(int32_t file)
{
    return _close(file);
}

int64_t lseek(int32_t file, int64_t offset, int32_t whence)
{
    return _lseeki64(file, offset, whence);
}

int32_t ftruncate(int32_t file, int64_t size)
{
    errno = _chsize_s(file, size);
    return errno ? -1 : 0;
}

struct statx {
    uint32_t mask, block_size;
    uint64_t attributes;
    uint32_t links, user, group;
    uint16_t mode, spare;
    uint64_t number, size, blocks, more_attributes, times[8];
    uint32_t of_device[2], device_major, device_minor;
    uint64_t rest[14];
};
_Static_assert(sizeof(struct statx) == 256, "a struct statx of Linux has 256 bytes");

// Describes an open file, and returns whether it could. Pipes and consoles are devices, each standard file with a number, other devices with 0.
static int describe(HANDLE handle, int standard, struct statx *found)
{
    found->mask = 0x7ff; // the numbers of POSIX's stat
    if (GetFileType(handle) != FILE_TYPE_DISK) {
        found->mode = READABLE | CHARACTERS;
        found->number = (uint64_t)standard + 1;
        found->device_minor = UINT32_MAX;
        return 1;
    }
    BY_HANDLE_FILE_INFORMATION about;
    if (!GetFileInformationByHandle(handle, &about))
        return 0;
    found->links = about.nNumberOfLinks;
    found->mode = READABLE | (about.dwFileAttributes & FILE_ATTRIBUTE_DIRECTORY ? FOLDER : REGULAR);
    found->number = (uint64_t)about.nFileIndexHigh << 32 | about.nFileIndexLow;
    found->size = (uint64_t)about.nFileSizeHigh << 32 | about.nFileSizeLow;
    found->device_minor = about.dwVolumeSerialNumber;
    return 1;
}

int32_t statx(int32_t folder, const char *path, int32_t flags, uint32_t mask, struct statx *found)
{
    (void)folder, (void)flags, (void)mask;
    *found = (struct statx){0};
    int file = standard_file(path);
    wchar_t units[PATH_UNITS];
    if (file < 0 && !to_windows(path, units))
        return -1;
    const DWORD shared = FILE_SHARE_READ | FILE_SHARE_WRITE | FILE_SHARE_DELETE, folders_too = FILE_FLAG_BACKUP_SEMANTICS;
    HANDLE handle = file >= 0 ? (HANDLE)_get_osfhandle(file) : CreateFileW(units, 0, shared, NULL, OPEN_EXISTING, folders_too, NULL);
    errno = ENOENT;
    if (handle == INVALID_HANDLE_VALUE)
        return -1;
    int described = describe(handle, file, found);
    if (file < 0)
        CloseHandle(handle);
    return described ? 0 : -1;
}

int64_t readlink(const char *path, uint8_t *target, uint64_t size)
{
    (void)path, (void)target, (void)size;
    errno = EINVAL; // the path is no link
    return -1;
}

int64_t __sysv_signal(int32_t number, int64_t handler)
{
    (void)number, (void)handler;
    return 0; // the programs only ask to ignore a broken pipe, for which Windows has no signal
}

int32_t __xpg_strerror_r(int32_t number, char *text, uint64_t size)
{
    return strerror_s(text, size, number);
}
