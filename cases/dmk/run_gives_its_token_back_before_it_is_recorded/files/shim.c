#define _GNU_SOURCE
#include <stdio.h>
#include <stdlib.h>
#include <string.h>
#include <sys/syscall.h>
#include <unistd.h>

/* Where the file `second` is there, a sync of the state makes the file `syncing` and waits for the file `go`. */
static int late_sync(int file, long call)
{
    char link[64], name[4096];
    snprintf(link, sizeof link, "/proc/self/fd/%d", file);
    ssize_t length = readlink(link, name, sizeof name - 1);
    if (length < 0)
        abort();
    name[length] = 0;
    if (strstr(name, "/.make.state") && access("second", F_OK) == 0) {
        FILE *out = fopen("syncing", "w");
        if (!out)
            abort();
        fclose(out);
        while (access("go", F_OK) != 0)
            usleep(10000);
    }
    return (int)syscall(call, file);
}

int fsync(int file) { return late_sync(file, SYS_fsync); }
int fdatasync(int file) { return late_sync(file, SYS_fdatasync); }
