#define _GNU_SOURCE
#include <stdio.h>
#include <stdlib.h>
#include <sys/syscall.h>
#include <unistd.h>

/* Adds a line to the file that CALLS names for each call that writes on standard output. */
ssize_t write(int file, const void *bytes, size_t count)
{
    if (file == 1) {
        FILE *out = fopen(getenv("CALLS"), "a");
        if (!out)
            abort();
        fprintf(out, "write\n");
        fclose(out);
    }
    return syscall(SYS_write, file, bytes, count);
}
