// Preloaded (LD_PRELOAD) under the proved program: writes the most bytes of heap that were live into the file PEAK.
#define _GNU_SOURCE
#include <malloc.h>
#include <stdio.h>
#include <stdlib.h>

extern void *__libc_malloc(size_t);
extern void *__libc_realloc(void *, size_t);
extern void __libc_free(void *);

static long live, peak;

static void *counted(void *at) {
    if (at)
        live += (long)malloc_usable_size(at);
    if (live > peak)
        peak = live;
    return at;
}

void *malloc(size_t size) { return counted(__libc_malloc(size)); }

void *realloc(void *old, size_t size) {
    long before = old ? (long)malloc_usable_size(old) : 0;
    void *at = __libc_realloc(old, size);
    if (at)
        live -= before;
    return counted(at);
}

void free(void *old) {
    if (old)
        live -= (long)malloc_usable_size(old);
    __libc_free(old);
}

__attribute__((destructor)) static void tell(void) {
    const char *name = getenv("PEAK");
    long most = peak;
    FILE *file = name ? fopen(name, "w") : NULL;
    if (!file)
        return;
    fprintf(file, "%ld\n", most);
    fclose(file);
}
