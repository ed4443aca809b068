/* Loaded before the C library by tests/edges_kills.py: the RENAME_AT-th rename of the process kills it (RENAME_HOW kill), fails (once), or
 * fails and all later ones too (from), before it is done. With NO_LINKS every hard link fails, as on a file system that has none. */
#define _GNU_SOURCE
#include <dlfcn.h>
#include <errno.h>
#include <signal.h>
#include <stdlib.h>
#include <string.h>

int linkat(int from_folder, const char *from, int to_folder, const char *to, int flags)
{
    int (*next)(int, const char *, int, const char *, int);
    if (getenv("NO_LINKS") != NULL) {
        errno = EPERM;
        return -1;
    }
    *(void **)&next = dlsym(RTLD_NEXT, "linkat");
    return next(from_folder, from, to_folder, to, flags);
}

int rename(const char *from, const char *to)
{
    static int count;
    int (*next)(const char *, const char *);
    const char *at = getenv("RENAME_AT"), *how = getenv("RENAME_HOW");
    if (at != NULL && how != NULL) {
        count++;
        if (count == atoi(at) && strcmp(how, "kill") == 0)
            raise(SIGKILL);
        if (count == atoi(at) || (count > atoi(at) && strcmp(how, "from") == 0)) {
            errno = EBUSY;
            return -1;
        }
    }
    *(void **)&next = dlsym(RTLD_NEXT, "rename");
    return next(from, to);
}
