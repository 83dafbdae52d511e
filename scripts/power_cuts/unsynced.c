// For power_cuts.py: takes fsync and fdatasync out of a program. UNSYNCED=all: each call; UNSYNCED=targets: those of files and
// folders at or under a folder 'out', so that the state is synced and the targets aren't.
#define _GNU_SOURCE
#include <limits.h>
#include <stdio.h>
#include <stdlib.h>
#include <string.h>
#include <sys/syscall.h>
#include <unistd.h>

static int left_out(int fd)
{
    const char *which = getenv("UNSYNCED");
    char link[64], path[PATH_MAX];
    ssize_t len;

    if (which == NULL)
        return 0;
    if (strcmp(which, "all") == 0)
        return 1;
    snprintf(link, sizeof link, "/proc/self/fd/%d", fd);
    len = readlink(link, path, sizeof path - 1);
    if (len < 0)
        return 0;
    path[len] = 0;
    return strstr(path, "/out/") != NULL || (len >= 4 && strcmp(path + len - 4, "/out") == 0);
}

int fsync(int fd)
{
    return left_out(fd) ? 0 : (int)syscall(SYS_fsync, fd);
}

int fdatasync(int fd)
{
    return left_out(fd) ? 0 : (int)syscall(SYS_fdatasync, fd);
}
