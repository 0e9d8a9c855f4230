/* Records, in order, the system calls on which a program's journal depends. Preloaded into the program.
 *
 * RECORD_FILE is the path of the journal, and RECORD_MIRROR that of its second file, if it has one, in another folder.
 * RECORD_TO is the file to which the lines are appended, one for each call:
 *
 *     write PLACE HEX       these bytes were written to the journal, from this index on
 *     fdatasync, fsync      the journal was synced
 *     ftruncate LENGTH      the journal was truncated to this length
 *     folder                the folder of the journal was synced
 *     print HEX             these bytes are about to be written to standard output
 *     accept                a connection was accepted
 *     send COUNT            bytes are about to be sent on a connection
 *
 * A line about the second file, or its folder, begins with `mirror `.
 *
 * A call that failed and changed nothing has no line. Preload this library after refuse_calls.c. It then records only
 * calls that are not refused. The program has one thread, so the order of the lines is the order of the calls. */
#define _GNU_SOURCE
#include <dlfcn.h>
#include <fcntl.h>
#include <libgen.h>
#include <limits.h>
#include <stdarg.h>
#include <stdio.h>
#include <stdlib.h>
#include <string.h>
#include <sys/socket.h>
#include <sys/stat.h>
#include <sys/syscall.h>
#include <unistd.h>

/* Appends bytes to the record. Ends the program if that fails, so that no incomplete record goes unnoticed. */
static void put(const char *bytes, size_t count) {
    static int record = -1;
    int how = O_WRONLY | O_CREAT | O_APPEND | O_CLOEXEC;
    if (record < 0) record = syscall(SYS_openat, AT_FDCWD, getenv("RECORD_TO"), how, 0600);
    if (record < 0 || syscall(SYS_write, record, bytes, count) != (long)count) abort();
}

static void put_line(const char *format, ...) {
    char line[64];
    va_list rest;
    va_start(rest, format);
    int count = vsnprintf(line, sizeof line, format, rest);
    va_end(rest);
    put(line, count);
}

/* Appends these bytes in hexadecimal digits, and ends the line. */
static void put_hex(const unsigned char *bytes, size_t count) {
    static const char digits[] = "0123456789abcdef";
    char *line = malloc(2 * count + 1);
    if (!line) abort();
    for (size_t at = 0; at < count; at++) {
        line[2 * at] = digits[bytes[at] >> 4];
        line[2 * at + 1] = digits[bytes[at] & 15];
    }
    line[2 * count] = '\n';
    put(line, 2 * count + 1);
    free(line);
}

/* Returns whether a descriptor is open on the file at this path. */
static int is_at(int descriptor, const char *path) {
    struct stat one, other;
    return !fstat(descriptor, &one) && !stat(path, &other) && one.st_ino == other.st_ino && one.st_dev == other.st_dev;
}

static int is_in_folder_of(int descriptor, const char *path) {
    char name[PATH_MAX];
    return strlen(path) < sizeof name && is_at(descriptor, dirname(strcpy(name, path)));
}

/* Returns how the line of a file begins, or NULL for a descriptor that is open on neither file. */
static const char *file_of(int descriptor) {
    const char *first = getenv("RECORD_FILE"), *second = getenv("RECORD_MIRROR");
    if (first && is_at(descriptor, first)) return "";
    return second && is_at(descriptor, second) ? "mirror " : NULL;
}

/* Returns how the line of a file's folder begins, or NULL for any other descriptor. */
static const char *folder_of(int descriptor) {
    const char *first = getenv("RECORD_FILE"), *second = getenv("RECORD_MIRROR");
    if (first && is_in_folder_of(descriptor, first)) return "";
    return second && is_in_folder_of(descriptor, second) ? "mirror " : NULL;
}

ssize_t write(int descriptor, const void *bytes, size_t count) {
    static ssize_t (*real)(int, const void *, size_t);
    if (!real) real = dlsym(RTLD_NEXT, "write");
    if (descriptor == STDOUT_FILENO) {
        put_line("print ");
        put_hex(bytes, count);
    }
    const char *file = file_of(descriptor);
    if (!file) return real(descriptor, bytes, count);
    struct stat before;
    if (fstat(descriptor, &before)) abort();
    ssize_t done = real(descriptor, bytes, count);
    if (done > 0) {
        put_line("%swrite %ld ", file, (long)before.st_size);
        put_hex(bytes, done);
    }
    return done;
}

#define SYNCS(name)                                                             \
    int name(int descriptor) {                                                  \
        static int (*real)(int);                                                \
        if (!real) real = dlsym(RTLD_NEXT, #name);                              \
        int failed = real(descriptor);                                          \
        const char *file = file_of(descriptor), *folder = folder_of(descriptor); \
        if (!failed && file) put_line("%s" #name "\n", file);                   \
        if (!failed && folder) put_line("%sfolder\n", folder);                  \
        return failed;                                                          \
    }
SYNCS(fdatasync)
SYNCS(fsync)

int ftruncate(int descriptor, off_t length) {
    static int (*real)(int, off_t);
    if (!real) real = dlsym(RTLD_NEXT, "ftruncate");
    int failed = real(descriptor, length);
    const char *file = file_of(descriptor);
    if (!failed && file) put_line("%sftruncate %ld\n", file, (long)length);
    return failed;
}

int accept4(int descriptor, struct sockaddr *address, socklen_t *length, int flags) {
    static int (*real)(int, struct sockaddr *, socklen_t *, int);
    if (!real) real = dlsym(RTLD_NEXT, "accept4");
    int taken = real(descriptor, address, length, flags);
    if (taken >= 0) put_line("accept\n");
    return taken;
}

ssize_t send(int descriptor, const void *bytes, size_t count, int flags) {
    static ssize_t (*real)(int, const void *, size_t, int);
    if (!real) real = dlsym(RTLD_NEXT, "send");
    put_line("send %zu\n", count);
    return real(descriptor, bytes, count, flags);
}
