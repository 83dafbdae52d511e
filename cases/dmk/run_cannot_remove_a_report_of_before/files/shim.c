#include <errno.h>
#include <string.h>
#include <sys/syscall.h>
#include <unistd.h>

/* A report may not be removed, as one that another user left in a sticky folder. */
int unlink(const char *path)
{
    if (strstr(path, ".dep.")) {
        errno = EPERM;
        return -1;
    }
    return (int)syscall(SYS_unlink, path);
}
