#define _GNU_SOURCE
#include <errno.h>
#include <stdio.h>
#include <stdlib.h>
#include <string.h>
#include <sys/syscall.h>
#include <unistd.h>

/* What dmk itself writes on standard output and error is noted in the file that CALLS names. */
ssize_t write(int file, const void *bytes, size_t count)
{
    if ((file == 1 || file == 2) && count > 0 && strcmp(program_invocation_short_name, "dmk") == 0) {
        FILE *out = fopen(getenv("CALLS"), "a");
        if (!out)
            abort();
        fprintf(out, "%s %zu\n", file == 1 ? "out" : "err", count);
        fclose(out);
    }
    return syscall(SYS_write, file, bytes, count);
}
