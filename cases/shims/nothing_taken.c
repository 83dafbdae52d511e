#define _GNU_SOURCE
#include <sys/syscall.h>
#include <unistd.h>

/* Standard output takes no byte, and says nothing of an error. */
ssize_t write(int file, const void *bytes, size_t count)
{
    if (file == 1)
        return 0;
    return syscall(SYS_write, file, bytes, count);
}
