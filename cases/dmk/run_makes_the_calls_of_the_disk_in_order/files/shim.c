#define _GNU_SOURCE
#include <fcntl.h>
#include <stdarg.h>
#include <stdio.h>
#include <stdlib.h>
#include <string.h>
#include <sys/syscall.h>
#include <unistd.h>

/* Adds to the file that CALLS names a line for each call that opens, reads, writes, cuts or syncs a side of the state, and for
   each sync of the folder that is worked in. A write of one byte is noted with the byte, a longer one with its length, a read
   that begins behind the first byte as one that goes on. */
static FILE *note(void)
{
    FILE *out = fopen(getenv("CALLS"), "a");
    if (!out)
        abort();
    return out;
}

static int is_side(const char *name)
{
    return strcmp(name, ".make.state") == 0 || strcmp(name, ".make.state.2") == 0;
}

static const char *name_of(int file)
{
    static __thread char name[4096];
    char link[64], folder[4096];
    snprintf(link, sizeof link, "/proc/self/fd/%d", file);
    ssize_t length = readlink(link, name, sizeof name - 1);
    if (length < 0 || !getcwd(folder, sizeof folder))
        abort();
    name[length] = 0;
    if (strcmp(name, folder) == 0)
        return "folder";
    const char *last = strrchr(name, '/');
    return last && is_side(last + 1) ? last + 1 : NULL;
}

static void note_call(const char *call, int file)
{
    const char *name = name_of(file);
    if (!name)
        return;
    FILE *out = note();
    fprintf(out, "%s %s\n", call, name);
    fclose(out);
}

int open(const char *path, int flags, ...)
{
    va_list more;
    va_start(more, flags);
    mode_t mode = flags & O_CREAT ? va_arg(more, mode_t) : 0;
    va_end(more);
    int file = (int)syscall(SYS_openat, AT_FDCWD, path, flags, mode);
    if (file >= 0 && is_side(path))
        note_call((flags & O_CREAT) ? (flags & O_EXCL) ? "create" : "create or open" : "open", file);
    return file;
}

ssize_t pread(int file, void *bytes, size_t count, off_t at)
{
    note_call(at == 0 ? "read" : "read on in", file);
    return syscall(SYS_pread64, file, bytes, count, at);
}

ssize_t pwrite(int file, const void *bytes, size_t count, off_t at)
{
    const char *name = name_of(file);
    if (name) {
        FILE *out = note();
        if (count == 1)
            fprintf(out, "write %s at %ld: %02x\n", name, (long)at, *(const unsigned char *)bytes);
        else
            fprintf(out, "write %s at %ld: %zu bytes\n", name, (long)at, count);
        fclose(out);
    }
    return syscall(SYS_pwrite64, file, bytes, count, at);
}

int ftruncate(int file, off_t length)
{
    const char *name = name_of(file);
    if (name) {
        FILE *out = note();
        fprintf(out, "cut %s to %ld\n", name, (long)length);
        fclose(out);
    }
    return (int)syscall(SYS_ftruncate, file, length);
}

int fsync(int file)
{
    note_call("sync", file);
    return (int)syscall(SYS_fsync, file);
}

int fdatasync(int file)
{
    note_call("sync", file);
    return (int)syscall(SYS_fdatasync, file);
}
