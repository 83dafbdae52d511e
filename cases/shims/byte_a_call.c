#define _GNU_SOURCE
#include <errno.h>
#include <stdio.h>
#include <stdlib.h>
#include <sys/syscall.h>
#include <unistd.h>

/* Standard output is interrupted once, and then takes a byte a call. Each call is noted in the file that CALLS names. */
ssize_t write(int file, const void *bytes, size_t count)
{
    static int calls;
    if (file != 1 || count == 0)
        return syscall(SYS_write, file, bytes, count);
    FILE *out = fopen(getenv("CALLS"), "a");
    if (!out)
        abort();
    fprintf(out, "write\n");
    fclose(out);
    if (calls++ == 0) {
        errno = EINTR;
        return -1;
    }
    return syscall(SYS_write, file, bytes, 1);
}
