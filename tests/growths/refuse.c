/* Refuses one growth of memory: the one whose number the environment variable REFUSED_GROWTH has, from 1. */
#define _GNU_SOURCE
#include <dlfcn.h>
#include <errno.h>
#include <stddef.h>
#include <stdlib.h>
#include <unistd.h>

static unsigned long growths;
static unsigned long refused;
static int started;

static int is_refused(void) {
    if (!started) {
        const char *number = getenv("REFUSED_GROWTH");
        started = 1;
        refused = number ? strtoul(number, NULL, 10) : 0;
    }
    growths += 1;
    if (refused != 0 && growths == refused) {
        errno = ENOMEM;
        return 1;
    }
    return 0;
}

/* Shows by a file whether the growth was reached at all. */
__attribute__((destructor)) static void tell(void) {
    const char *path = getenv("REFUSED_GROWTH_MET");
    if (path && refused != 0 && growths >= refused) {
        int ignored = symlink("met", path);
        (void)ignored;
    }
}

#define NEXT(name) ((__typeof__(&name))dlsym(RTLD_NEXT, #name))

void *malloc(size_t size) {
    static __typeof__(&malloc) next;
    if (!next) next = NEXT(malloc);
    return is_refused() ? NULL : next(size);
}

void *realloc(void *old, size_t size) {
    static __typeof__(&realloc) next;
    if (!next) next = NEXT(realloc);
    return is_refused() ? NULL : next(old, size);
}

void *aligned_alloc(size_t alignment, size_t size) {
    static __typeof__(&aligned_alloc) next;
    if (!next) next = NEXT(aligned_alloc);
    return is_refused() ? NULL : next(alignment, size);
}

int posix_memalign(void **place, size_t alignment, size_t size) {
    static __typeof__(&posix_memalign) next;
    if (!next) next = NEXT(posix_memalign);
    return is_refused() ? ENOMEM : next(place, alignment, size);
}
