#define _GNU_SOURCE
#include <errno.h>
#include <fcntl.h>
#include <link.h>
#include <stdatomic.h>
#include <stdint.h>
#include <stdlib.h>
#include <unistd.h>

/* In front of the calls for memory: of those that the program itself makes, the one whose number REFUSED_AT has is refused, or
   each from the number on that REFUSED_FROM has. The file that REFUSED_NOTE names is made at the first refusal. Programs that are started
   have their memory. */
static atomic_long calls;
static atomic_flag noted = ATOMIC_FLAG_INIT;
static long at, from;
static const char *note;
static uintptr_t low, high;

static int first_object(struct dl_phdr_info *object, size_t size, void *none)
{
    (void)size, (void)none;
    for (int k = 0; k < object->dlpi_phnum; k++) {
        const ElfW(Phdr) *part = &object->dlpi_phdr[k];
        uintptr_t start = object->dlpi_addr + part->p_vaddr, end = start + part->p_memsz;
        if (part->p_type != PT_LOAD)
            continue;
        if (!low || start < low)
            low = start;
        if (end > high)
            high = end;
    }
    return 1;
}

static long number_of(const char *name)
{
    const char *text = getenv(name);
    return text ? atol(text) : 0;
}

__attribute__((constructor)) static void begin(void)
{
    at = number_of("REFUSED_AT");
    from = number_of("REFUSED_FROM");
    note = getenv("REFUSED_NOTE");
    unsetenv("LD_PRELOAD");
    dl_iterate_phdr(first_object, NULL);
}

static int is_refused(void *caller)
{
    if ((uintptr_t)caller < low || (uintptr_t)caller >= high)
        return 0;
    long number = atomic_fetch_add(&calls, 1) + 1;
    if (number != at && !(from && number >= from))
        return 0;
    if (!atomic_flag_test_and_set(&noted))
        close(open(note, O_CREAT | O_WRONLY | O_CLOEXEC, 0600));
    errno = ENOMEM;
    return 1;
}

extern void *__libc_malloc(size_t), *__libc_calloc(size_t, size_t), *__libc_realloc(void *, size_t);
extern void *__libc_memalign(size_t, size_t);

void *malloc(size_t size)
{
    return is_refused(__builtin_return_address(0)) ? NULL : __libc_malloc(size);
}

void *calloc(size_t count, size_t size)
{
    return is_refused(__builtin_return_address(0)) ? NULL : __libc_calloc(count, size);
}

void *realloc(void *old, size_t size)
{
    return is_refused(__builtin_return_address(0)) ? NULL : __libc_realloc(old, size);
}

void *aligned_alloc(size_t alignment, size_t size)
{
    return is_refused(__builtin_return_address(0)) ? NULL : __libc_memalign(alignment, size);
}

int posix_memalign(void **place, size_t alignment, size_t size)
{
    if (is_refused(__builtin_return_address(0)))
        return ENOMEM;
    *place = __libc_memalign(alignment, size);
    return *place ? 0 : ENOMEM;
}
