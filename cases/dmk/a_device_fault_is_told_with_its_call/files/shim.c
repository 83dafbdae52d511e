#define _GNU_SOURCE
#include <errno.h>
#include <stdio.h>
#include <stdlib.h>
#include <string.h>
#include <sys/syscall.h>
#include <unistd.h>

/* Refuses the call that REFUSED names on the files of the state. */
static int refuses(const char *call, int file, int error)
{
    char link[64], name[4096];
    const char *refused = getenv("REFUSED");
    snprintf(link, sizeof link, "/proc/self/fd/%d", file);
    ssize_t length = readlink(link, name, sizeof name - 1);
    if (length < 0 || !refused || strcmp(refused, call) != 0)
        return 0;
    name[length] = 0;
    const char *last = strrchr(name, '/');
    if (!last || (strcmp(last, "/.make.state") != 0 && strcmp(last, "/.make.state.2") != 0))
        return 0;
    errno = error;
    return 1;
}

ssize_t pwrite(int file, const void *bytes, size_t count, off_t at)
{
    return refuses("write", file, ENOSPC) ? -1 : syscall(SYS_pwrite64, file, bytes, count, at);
}

ssize_t pwrite64(int file, const void *bytes, size_t count, off_t at)
{
    return pwrite(file, bytes, count, at);
}

ssize_t pread(int file, void *bytes, size_t count, off_t at)
{
    return refuses("read", file, EIO) ? -1 : syscall(SYS_pread64, file, bytes, count, at);
}

ssize_t pread64(int file, void *bytes, size_t count, off_t at)
{
    return pread(file, bytes, count, at);
}

int fsync(int file)
{
    return refuses("sync", file, EIO) ? -1 : (int)syscall(SYS_fsync, file);
}
