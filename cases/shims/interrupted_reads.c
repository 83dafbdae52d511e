#define _GNU_SOURCE
#include <errno.h>
#include <pthread.h>
#include <stdio.h>
#include <stdlib.h>
#include <string.h>
#include <sys/syscall.h>
#include <unistd.h>

/* Of the calls that read one file every other is interrupted, the first one too. The file that CALLS names gets the name of each file
   in the folder that is worked in of which a call was interrupted. */
static pthread_mutex_t lock = PTHREAD_MUTEX_INITIALIZER;

static void note(const char *name, const char *folder)
{
    size_t length = strlen(folder);
    if (strncmp(name, folder, length) != 0 || name[length] != '/')
        return;
    FILE *out = fopen(getenv("CALLS"), "a");
    if (!out)
        abort();
    fprintf(out, "%s\n", name + length + 1);
    fclose(out);
}

static int is_interrupted(int file)
{
    static char names[64][512];
    static int calls[64];
    char link[64], name[512], folder[512];
    snprintf(link, sizeof link, "/proc/self/fd/%d", file);
    ssize_t length = readlink(link, name, sizeof name - 1);
    if (length < 0 || !getcwd(folder, sizeof folder))
        abort();
    name[length] = 0;
    pthread_mutex_lock(&lock);
    int place = 0;
    while (place < 63 && names[place][0] && strcmp(names[place], name) != 0)
        place++;
    strcpy(names[place], name);
    int answer = calls[place]++ % 2 == 0;
    if (answer)
        note(name, folder);
    pthread_mutex_unlock(&lock);
    return answer;
}

ssize_t read(int file, void *bytes, size_t count)
{
    if (!is_interrupted(file))
        return syscall(SYS_read, file, bytes, count);
    errno = EINTR;
    return -1;
}

ssize_t pread(int file, void *bytes, size_t count, off_t at)
{
    if (!is_interrupted(file))
        return syscall(SYS_pread64, file, bytes, count, at);
    errno = EINTR;
    return -1;
}
