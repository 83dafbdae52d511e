#define _GNU_SOURCE
#include <fcntl.h>
#include <pthread.h>
#include <stdarg.h>
#include <stdio.h>
#include <stdlib.h>
#include <string.h>
#include <sys/syscall.h>
#include <unistd.h>

/* The first sync of the folder lasts until the folder was opened twice, or for 20 s. Whether it was is noted in the file that SEEN names. */
static pthread_mutex_t lock = PTHREAD_MUTEX_INITIALIZER;
static int opened, begun;

static int count_of(int *count, int more)
{
    pthread_mutex_lock(&lock);
    int before = *count;
    *count += more;
    pthread_mutex_unlock(&lock);
    return before;
}

int open(const char *path, int flags, ...)
{
    va_list rest;
    va_start(rest, flags);
    int mode = flags & O_CREAT ? va_arg(rest, int) : 0;
    va_end(rest);
    int file = (int)syscall(SYS_openat, AT_FDCWD, path, flags, mode);
    if (strcmp(path, "one") == 0)
        count_of(&opened, 1);
    return file;
}

static void wait_for_another(void)
{
    int looks = 0;
    while (count_of(&opened, 0) < 2 && looks++ < 20000)
        usleep(1000);
    FILE *seen = fopen(getenv("SEEN"), "w");
    fprintf(seen, "%d\n", count_of(&opened, 0));
    fclose(seen);
}

int fsync(int file)
{
    char link[64], name[4096];
    snprintf(link, sizeof link, "/proc/self/fd/%d", file);
    ssize_t length = readlink(link, name, sizeof name - 1);
    if (length < 0)
        abort();
    name[length] = 0;
    if (strcmp(strrchr(name, '/'), "/one") == 0 && count_of(&begun, 1) == 0)
        wait_for_another();
    return (int)syscall(SYS_fsync, file);
}
