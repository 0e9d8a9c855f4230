/* Refuses one system call of a program that names, reads, or changes a file. Preloaded into the program.
 *
 * REFUSE_CALL names the call, REFUSE_FILE is the path of the file, and REFUSE_AT is the number of the call, from 1. If
 * REFUSE_SIZE is set, calls count only once the file has at least that number of bytes. A refused write writes half of
 * its bytes, as on a full disk. Any other refused call does nothing. */
#define _GNU_SOURCE
#include <dlfcn.h>
#include <errno.h>
#include <fcntl.h>
#include <stdarg.h>
#include <stdlib.h>
#include <string.h>
#include <sys/file.h>
#include <sys/stat.h>
#include <unistd.h>

static int calls;

/* Whether the descriptor is that of the file, or of its folder. */
static int is_file(int descriptor) {
    struct stat one, other;
    const char *path = getenv("REFUSE_FILE");
    if (!path || fstat(descriptor, &one)) return 0;
    if (S_ISDIR(one.st_mode)) return 1;
    return !stat(path, &other) && one.st_ino == other.st_ino && one.st_dev == other.st_dev;
}

/* Whether the file has REFUSE_SIZE bytes, from which on calls count. */
static int is_large(void) {
    struct stat file;
    const char *path = getenv("REFUSE_FILE"), *size = getenv("REFUSE_SIZE");
    return !size || (path && !stat(path, &file) && file.st_size >= atol(size));
}

static int refuses(const char *call) {
    const char *wanted = getenv("REFUSE_CALL"), *at = getenv("REFUSE_AT");
    return wanted && at && !strcmp(wanted, call) && is_large() && ++calls == atoi(at);
}

static int is_path(const char *path) {
    const char *file = getenv("REFUSE_FILE");
    return file && !strncmp(path, file, strlen(path));
}

#define OPENS(name)                                                                                     \
    int name(const char *path, int flags, ...) {                                                        \
        static int (*real)(const char *, int, ...);                                                     \
        va_list rest;                                                                                   \
        va_start(rest, flags);                                                                          \
        mode_t mode = va_arg(rest, mode_t);                                                             \
        va_end(rest);                                                                                   \
        if (!real) real = dlsym(RTLD_NEXT, #name);                                                      \
        if (is_path(path) && refuses("open")) { errno = EIO; return -1; }                               \
        return real(path, flags, mode);                                                                 \
    }
OPENS(open)
OPENS(open64)

int openat(int folder, const char *path, int flags, ...) {
    static int (*real)(int, const char *, int, ...);
    va_list rest;
    va_start(rest, flags);
    mode_t mode = va_arg(rest, mode_t);
    va_end(rest);
    if (!real) real = dlsym(RTLD_NEXT, "openat");
    if (is_path(path) && refuses("open")) { errno = EIO; return -1; }
    return real(folder, path, flags, mode);
}

ssize_t read(int descriptor, void *bytes, size_t count) {
    static ssize_t (*real)(int, void *, size_t);
    if (!real) real = dlsym(RTLD_NEXT, "read");
    if (is_file(descriptor) && refuses("read")) { errno = EIO; return -1; }
    return real(descriptor, bytes, count);
}

int statx(int folder, const char *restrict path, int flags, unsigned mask, struct statx *restrict found) {
    static int (*real)(int, const char *restrict, int, unsigned, struct statx *restrict);
    if (!real) real = dlsym(RTLD_NEXT, "statx");
    if (is_file(folder) && refuses("statx")) { errno = EIO; return -1; }
    return real(folder, path, flags, mask, found);
}

ssize_t write(int descriptor, const void *bytes, size_t count) {
    static ssize_t (*real)(int, const void *, size_t);
    if (!real) real = dlsym(RTLD_NEXT, "write");
    if (descriptor > 2 && is_file(descriptor) && refuses("write")) {
        if (real(descriptor, bytes, count / 2) < 0) return -1;
        errno = ENOSPC;
        return -1;
    }
    return real(descriptor, bytes, count);
}

#define REFUSED(name, call)                                                     \
    int name(int descriptor) {                                                  \
        static int (*real)(int);                                                \
        if (!real) real = dlsym(RTLD_NEXT, #name);                              \
        if (is_file(descriptor) && refuses(call)) { errno = EIO; return -1; }   \
        return real(descriptor);                                                \
    }
REFUSED(fdatasync, "fdatasync")
REFUSED(fsync, "fsync")

int flock(int descriptor, int operation) {
    static int (*real)(int, int);
    if (!real) real = dlsym(RTLD_NEXT, "flock");
    if (refuses("flock")) { errno = EIO; return -1; }
    return real(descriptor, operation);
}

int ftruncate(int descriptor, off_t size) {
    static int (*real)(int, off_t);
    if (!real) real = dlsym(RTLD_NEXT, "ftruncate");
    if (refuses("ftruncate")) { errno = EIO; return -1; }
    return real(descriptor, size);
}
