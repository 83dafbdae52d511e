#define _GNU_SOURCE
#include <fcntl.h>
#include <stdarg.h>
#include <stdio.h>
#include <stdlib.h>
#include <string.h>
#include <sys/syscall.h>
#include <unistd.h>

/* The file that CALLS names gets the name of each makefile that is opened. */
static int opened(const char *name, int flags, mode_t mode)
{
    if (strcmp(name, "makefile") == 0 || name[0] == 'f') {
        char line[64];
        int out = syscall(SYS_openat, AT_FDCWD, getenv("CALLS"), O_WRONLY | O_CREAT | O_APPEND, 0666);
        int length = snprintf(line, sizeof line, "opened: %s\n", name);
        if (out < 0 || write(out, line, length) != length)
            abort();
        close(out);
    }
    return syscall(SYS_openat, AT_FDCWD, name, flags, mode);
}

int open(const char *name, int flags, ...)
{
    va_list more;
    va_start(more, flags);
    mode_t mode = va_arg(more, mode_t);
    va_end(more);
    return opened(name, flags, mode);
}

int open64(const char *name, int flags, ...)
{
    va_list more;
    va_start(more, flags);
    mode_t mode = va_arg(more, mode_t);
    va_end(more);
    return opened(name, flags, mode);
}
