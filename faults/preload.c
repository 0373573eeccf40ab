// Preloaded (LD_PRELOAD) under the proved program: refuses its nth allocation, or fails or shortens its nth read or write.
// The environment says which; what it does not name is never refused.
//
//   REFUSE_ALLOCATION=n   the nth allocation finds no memory; REFUSE_FROM=n: each from the nth on
//   FAIL_READ=n           the nth read fails with the number ERRNO
//   FAIL_WRITE=n          the nth write fails, not counting those to standard error; ERRNO=0: it takes no byte
//   SHORT_READ=n          the nth read of several bytes moves one; SHORT_WRITE=n; SHORT_ALL=1: each of both
//   COUNTS=file           the file for the numbers of allocations, reads and writes at the end
#define _GNU_SOURCE
#include <dlfcn.h>
#include <errno.h>
#include <stdio.h>
#include <stdlib.h>
#include <unistd.h>

extern void *__libc_malloc(size_t);
extern void *__libc_realloc(void *, size_t);

static long allocations, reads, writes;
static long refuse_allocation, refuse_from, fail_read, fail_write, short_read, short_write;
static long short_all, error;

static long number(const char *name) {
    const char *text = getenv(name);
    return text ? atol(text) : 0;
}

static void prepare(void) {
    static int is_ready;
    if (is_ready)
        return;
    is_ready = 1;
    refuse_allocation = number("REFUSE_ALLOCATION");
    refuse_from = number("REFUSE_FROM");
    fail_read = number("FAIL_READ");
    fail_write = number("FAIL_WRITE");
    short_read = number("SHORT_READ");
    short_write = number("SHORT_WRITE");
    short_all = number("SHORT_ALL");
    error = number("ERRNO");
}

static int refuses(void) {
    prepare();
    allocations++;
    if (allocations != refuse_allocation && !(refuse_from && allocations >= refuse_from))
        return 0;
    errno = ENOMEM;
    return 1;
}

void *malloc(size_t size) { return refuses() ? NULL : __libc_malloc(size); }

void *realloc(void *old, size_t size) { return refuses() ? NULL : __libc_realloc(old, size); }

ssize_t read(int file, void *bytes, size_t size) {
    static ssize_t (*plain)(int, void *, size_t);
    prepare();
    if (!plain)
        plain = dlsym(RTLD_NEXT, "read");
    reads++;
    if (reads == fail_read) {
        errno = (int)error;
        return -1;
    }
    return plain(file, bytes, size > 1 && (reads == short_read || short_all) ? 1 : size);
}

ssize_t write(int file, const void *bytes, size_t size) {
    static ssize_t (*plain)(int, const void *, size_t);
    prepare();
    if (!plain)
        plain = dlsym(RTLD_NEXT, "write");
    if (file == STDERR_FILENO)
        return plain(file, bytes, size);
    writes++;
    if (writes == fail_write) {
        errno = (int)error;
        return error ? -1 : 0;
    }
    return plain(file, bytes, size > 1 && (writes == short_write || short_all) ? 1 : size);
}

__attribute__((destructor)) static void tell(void) {
    const char *name = getenv("COUNTS");
    // What is said here takes memory too.
    long counts[] = {allocations, reads, writes};
    refuse_allocation = refuse_from = 0;
    FILE *file = name ? fopen(name, "w") : NULL;
    if (!file)
        return;
    fprintf(file, "%ld %ld %ld\n", counts[0], counts[1], counts[2]);
    fclose(file);
}
