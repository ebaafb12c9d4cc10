/* Makes calls of a program to the system fail, for bench/faults. It is loaded beside the program, in front of the C library.
 *
 * FAULT names what fails and when: "alloc N", "open N", "read N" and "write N" refuse the call with that number, counted from 1; "short read N" and
 * "short write N" let it move one byte. The descriptor SAID gets a byte when that happens.
 */
#define _GNU_SOURCE
#include <errno.h>
#include <fcntl.h>
#include <stdarg.h>
#include <stdio.h>
#include <stdlib.h>
#include <string.h>
#include <sys/syscall.h>
#include <unistd.h>

extern void *__libc_malloc(size_t size);
extern void *__libc_calloc(size_t count, size_t size);
extern void *__libc_realloc(void *block, size_t size);
extern void *__libc_memalign(size_t align, size_t size);

static char what[16];
static long wanted;
static long seen;
static int said = -1;

__attribute__((constructor)) static void begin(void) {
    const char *fault = getenv("FAULT");
    const char *place = getenv("SAID");
    if (fault && place && sscanf(fault, "%15[a-z ] %ld", what, &wanted) == 2) {
        size_t length = strlen(what);
        if (length && what[length - 1] == ' ')
            what[length - 1] = 0;
        said = atoi(place);
    }
}

static int is_due(const char *call) {
    if (said < 0 || strcmp(what, call) || ++seen != wanted)
        return 0;
    syscall(SYS_write, said, "!", 1);
    return 1;
}

static int is_refused(void) {
    if (!is_due("alloc"))
        return 0;
    errno = ENOMEM;
    return 1;
}

void *malloc(size_t size) {
    return is_refused() ? NULL : __libc_malloc(size);
}

void *calloc(size_t count, size_t size) {
    return is_refused() ? NULL : __libc_calloc(count, size);
}

void *realloc(void *block, size_t size) {
    return is_refused() ? NULL : __libc_realloc(block, size);
}

void *aligned_alloc(size_t align, size_t size) {
    return is_refused() ? NULL : __libc_memalign(align, size);
}

int posix_memalign(void **block, size_t align, size_t size) {
    if (is_refused())
        return ENOMEM;
    *block = __libc_memalign(align, size);
    return *block ? 0 : ENOMEM;
}

static ssize_t moved(long call, const char *name, const char *cut, int file, const void *bytes, size_t size) {
    if (is_due(name)) {
        errno = EIO;
        return -1;
    }
    if (size > 1 && is_due(cut))
        size = 1;
    return syscall(call, file, bytes, size);
}

ssize_t read(int file, void *bytes, size_t size) {
    return moved(SYS_read, "read", "short read", file, bytes, size);
}

ssize_t write(int file, const void *bytes, size_t size) {
    return moved(SYS_write, "write", "short write", file, bytes, size);
}

static int opened(int folder, const char *path, int flags, mode_t mode) {
    if (is_due("open")) {
        errno = EIO;
        return -1;
    }
    return syscall(SYS_openat, folder, path, flags, mode);
}

int open(const char *path, int flags, ...) {
    va_list rest;
    va_start(rest, flags);
    mode_t mode = flags & O_CREAT ? va_arg(rest, mode_t) : 0;
    va_end(rest);
    return opened(AT_FDCWD, path, flags, mode);
}

int openat(int folder, const char *path, int flags, ...) {
    va_list rest;
    va_start(rest, flags);
    mode_t mode = flags & O_CREAT ? va_arg(rest, mode_t) : 0;
    va_end(rest);
    return opened(folder, path, flags, mode);
}

int open64(const char *path, int flags, ...) __attribute__((alias("open")));
int openat64(int folder, const char *path, int flags, ...) __attribute__((alias("openat")));
