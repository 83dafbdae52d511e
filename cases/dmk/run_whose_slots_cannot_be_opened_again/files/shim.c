#define _GNU_SOURCE
#include <errno.h>
#include <fcntl.h>
#include <stdarg.h>
#include <stdio.h>
#include <stdlib.h>
#include <string.h>
#include <sys/syscall.h>
#include <unistd.h>

/* Lets a file whose name ends in .fifo be opened once, and refuses it then. Each call is noted in the file that CALLS names. */
static int open_once(int folder, const char *name, int flags, int mode)
{
    static int calls;
    size_t length = strlen(name);
    if (length < 5 || strcmp(name + length - 5, ".fifo") != 0)
        return (int)syscall(SYS_openat, folder, name, flags, mode);
    int refused = calls++ > 0;
    FILE *out = fopen(getenv("CALLS"), "a");
    if (!out)
        abort();
    fprintf(out, refused ? "refused\n" : "opened\n");
    fclose(out);
    if (refused) {
        errno = EMFILE;
        return -1;
    }
    return (int)syscall(SYS_openat, folder, name, flags, mode);
}

static int mode_of(int flags, va_list rest) { return flags & (O_CREAT | __O_TMPFILE) ? va_arg(rest, int) : 0; }

int open(const char *name, int flags, ...)
{
    va_list rest;
    va_start(rest, flags);
    int mode = mode_of(flags, rest);
    va_end(rest);
    return open_once(AT_FDCWD, name, flags, mode);
}

int openat(int folder, const char *name, int flags, ...)
{
    va_list rest;
    va_start(rest, flags);
    int mode = mode_of(flags, rest);
    va_end(rest);
    return open_once(folder, name, flags, mode);
}
