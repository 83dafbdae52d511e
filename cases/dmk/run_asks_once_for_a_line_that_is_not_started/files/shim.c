#define _GNU_SOURCE
#include <dlfcn.h>
#include <errno.h>
#include <spawn.h>
#include <stdio.h>
#include <stdlib.h>

/* The first process isn't started. The last word of each is noted in the file that CALLS names. */
int posix_spawn(pid_t *child, const char *path, const posix_spawn_file_actions_t *actions,
                const posix_spawnattr_t *attributes, char *const words[], char *const variables[])
{
    static int calls;
    int refused = calls++ == 0, last = 0;
    while (words[last + 1])
        last++;
    FILE *out = fopen(getenv("CALLS"), "a");
    if (!out)
        abort();
    fprintf(out, "%s: %s\n", refused ? "refused" : "started", words[last]);
    fclose(out);
    if (refused)
        return EAGAIN;
    int (*real)(pid_t *, const char *, const posix_spawn_file_actions_t *, const posix_spawnattr_t *, char *const[],
                char *const[]) = dlsym(RTLD_NEXT, "posix_spawn");
    return real(child, path, actions, attributes, words, variables);
}
