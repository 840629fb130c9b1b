// The clang of a linked kit (tools/building/linked_kit.py): it saves each LLVM module and the object that clang makes of it.
//
//     cc -O2 -DCLANG='"/opt/rattle/toolchain/bin/clang"' -DFOLDER='"/tmp/captured"' tools/building/keep_module.c -o clang
//
// The kit hands a module over as module.bc in the current folder; it goes to FOLDER/NUMBER.bc, and what clang compiles it to with -c to
// FOLDER/NUMBER.o. The folder is fixed, since the kit runs clang without an environment. Every other call becomes the kit's clang at once.
// It is also the kit's linker and objdump, by the name in argv[0], so that it needs the same argv: a shell script couldn't pass argv[0] on.
// A module that can't be saved is a warning alone, since the build has to go on.
#include <signal.h>
#include <stdio.h>
#include <string.h>
#include <sys/prctl.h>
#include <sys/wait.h>
#include <unistd.h>

enum { LONGEST_PATH = 4096, FAILED_EXEC = 127, SIGNALLED = 128 };

// Copies a file. The copy gets its name once it is complete. 0, or -1 for a failure.
static int save(const char *file, const char *copy)
{
    char part[LONGEST_PATH + 8], bytes[65536];
    size_t count;
    snprintf(part, sizeof part, "%s.part", copy);
    FILE *from = fopen(file, "rb"), *to = fopen(part, "wb");
    int failed = !from || !to;
    while (!failed && (count = fread(bytes, 1, sizeof bytes, from)) > 0)
        failed = fwrite(bytes, 1, count, to) < count;
    failed |= from && ferror(from);
    if (from)
        fclose(from);
    if (to)
        failed |= fclose(to) != 0;
    return failed || rename(part, copy) ? -1 : 0;
}

static int become_clang(char **arguments)
{
    execv(CLANG, arguments);
    perror(CLANG);
    return FAILED_EXEC;
}

// Compiles module.bc to `object` as the kit asks, and saves both. The status is that of clang.
static int compile(char **arguments, const char *object)
{
    char module[LONGEST_PATH], compiled[LONGEST_PATH];
    int status, failed;
    snprintf(module, sizeof module, "%s/%ld.bc", FOLDER, (long)getpid());
    snprintf(compiled, sizeof compiled, "%s/%ld.o", FOLDER, (long)getpid());
    failed = save("module.bc", module);
    pid_t child = fork();
    if (child < 0)
        return become_clang(arguments);
    if (child == 0) {
        prctl(PR_SET_PDEATHSIG, SIGKILL); // it ends when the kit kills this process
        return become_clang(arguments);
    }
    if (waitpid(child, &status, 0) < 0)
        return FAILED_EXEC;
    if (!WIFEXITED(status))
        return SIGNALLED + WTERMSIG(status);
    if (WEXITSTATUS(status) == 0 && (failed || save(object, compiled)))
        fprintf(stderr, "warning: module.bc isn't saved in %s\n", FOLDER);
    return WEXITSTATUS(status);
}

int main(int count, char **arguments)
{
    int has_module = 0, is_compiled = 0;
    const char *object = NULL;
    for (int at = 1; at < count; at++) {
        has_module |= !strcmp(arguments[at], "module.bc");
        is_compiled |= !strcmp(arguments[at], "-c");
        if (!strcmp(arguments[at], "-o") && at + 1 < count)
            object = arguments[at + 1];
    }
    return has_module && is_compiled && object ? compile(arguments, object) : become_clang(arguments);
}
