#define _GNU_SOURCE
#include <errno.h>
#include <fcntl.h>
#include <stdio.h>
#include <string.h>
#include <sys/syscall.h>
#include <unistd.h>

/* A read of the pool fails, and leaves a file `asked`. */
ssize_t read(int file, void *bytes, size_t count)
{
    char link[64], name[4096];
    snprintf(link, sizeof link, "/proc/self/fd/%d", file);
    ssize_t length = readlink(link, name, sizeof name);
    if (length < 5 || memcmp(name + length - 5, "/pool", 5) != 0)
        return syscall(SYS_read, file, bytes, count);
    close(open("asked", O_WRONLY | O_CREAT, 0666));
    errno = EIO;
    return -1;
}
