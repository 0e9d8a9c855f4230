/* Counts allocations, and refuses one of them. Linked with the program of this folder, which calls the first three
 * functions.
 *
 * `rt try` builds a program with a sanitizer. A program may replace the sanitizer's allocating functions under these
 * names. */
#include <errno.h>
#include <stddef.h>
#include <stdint.h>

static uint64_t seen, refused;
static uint8_t is_watched;

/* From now on, refuses the allocation of this number; 0 refuses none. */
void refuse_growth(uint64_t number) {
    seen = 0;
    refused = number;
}

/* Sets whether allocations count from now on. */
void watch_growths(uint8_t is_on) { is_watched = is_on; }

/* Returns how many have counted since the last call of refuse_growth. */
uint64_t growths_seen(void) { return seen; }

static int refuses(void) { return is_watched && ++seen == refused; }

void *___interceptor_malloc(size_t size);
void *___interceptor_realloc(void *old, size_t size);
void *___interceptor_aligned_alloc(size_t align, size_t size);
int ___interceptor_posix_memalign(void **out, size_t align, size_t size);

void *__interceptor_malloc(size_t size) {
    if (!refuses()) return ___interceptor_malloc(size);
    errno = ENOMEM;
    return 0;
}

void *__interceptor_realloc(void *old, size_t size) {
    if (!refuses()) return ___interceptor_realloc(old, size);
    errno = ENOMEM;
    return 0;
}

void *__interceptor_aligned_alloc(size_t align, size_t size) {
    if (!refuses()) return ___interceptor_aligned_alloc(align, size);
    errno = ENOMEM;
    return 0;
}

int __interceptor_posix_memalign(void **out, size_t align, size_t size) {
    return refuses() ? ENOMEM : ___interceptor_posix_memalign(out, align, size);
}
