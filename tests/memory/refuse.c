/* Refuses one allocation of a program. Preloaded into the program.
 *
 * REFUSE is the number of the refused allocation, from 1; 0 refuses none. REFUSE_TOLD is a descriptor. At the program's
 * end, two numbers are written to it: the count of allocations, and the count of refused ones. A reallocation counts as
 * an allocation. */
#define _GNU_SOURCE
#include <dlfcn.h>
#include <errno.h>
#include <stdio.h>
#include <stdlib.h>
#include <unistd.h>

static long growths, refused, refused_at = -1;

static int refuses(void) {
    if (refused_at < 0) {
        const char *number = getenv("REFUSE");
        refused_at = number ? atol(number) : 0;
    }
    if (++growths != refused_at) return 0;
    refused++;
    return 1;
}

__attribute__((destructor)) static void tell(void) {
    const char *descriptor = getenv("REFUSE_TOLD");
    if (descriptor) dprintf(atoi(descriptor), "%ld %ld", growths, refused);
}

void *malloc(size_t size) {
    static void *(*real)(size_t);
    if (!real) real = dlsym(RTLD_NEXT, "malloc");
    if (refuses()) { errno = ENOMEM; return 0; }
    return real(size);
}

void *realloc(void *old, size_t size) {
    static void *(*real)(void *, size_t);
    if (!real) real = dlsym(RTLD_NEXT, "realloc");
    if (refuses()) { errno = ENOMEM; return 0; }
    return real(old, size);
}

int posix_memalign(void **out, size_t align, size_t size) {
    static int (*real)(void **, size_t, size_t);
    if (!real) real = dlsym(RTLD_NEXT, "posix_memalign");
    return refuses() ? ENOMEM : real(out, align, size);
}

void *aligned_alloc(size_t align, size_t size) {
    static void *(*real)(size_t, size_t);
    if (!real) real = dlsym(RTLD_NEXT, "aligned_alloc");
    if (refuses()) { errno = ENOMEM; return 0; }
    return real(align, size);
}
