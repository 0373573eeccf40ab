// Preloaded (LD_PRELOAD) under `dagstore`: kills it at a call that makes, writes, cuts, removes or syncs a file.
//
//   KILL_AT=n      before the nth of these calls; KILL_HALF=1: a write moves half of its bytes first
//   KILL_LOSE=n    as when the power fails: of what was written and cut since the last sync of a file, each sector and each cut is lost
//                  or not, by a draw with the seed n
//   CALLS=file     the file for the number of these calls, and for that of the first write to standard output
#define _GNU_SOURCE
#include <dlfcn.h>
#include <fcntl.h>
#include <signal.h>
#include <stdarg.h>
#include <stdio.h>
#include <stdlib.h>
#include <sys/stat.h>
#include <unistd.h>

enum { SECTOR = 512 };

// A write or a cut that no sync followed yet: its place, the file's length before and after it, and the bytes from there on before and after.
struct change {
    struct change *before;
    int file, is_cut;
    off_t at, old_length, length;
    size_t old_size, size;
    unsigned char *old_bytes, *bytes;
};

static struct change *last;
static long calls, told;

static long number(const char *name) {
    const char *text = getenv(name);
    return text ? atol(text) : 0;
}

#define PLAIN(name, result, ...)                                                                                     \
    static result (*plain)(__VA_ARGS__);                                                                             \
    if (!plain)                                                                                                      \
        plain = dlsym(RTLD_NEXT, name)

static ssize_t plain_pwrite(int file, const void *bytes, size_t size, off_t at) {
    PLAIN("pwrite", ssize_t, int, const void *, size_t, off_t);
    return plain(file, bytes, size, at);
}

static int plain_ftruncate(int file, off_t size) {
    PLAIN("ftruncate", int, int, off_t);
    return plain(file, size);
}

static off_t length_of(int file) {
    struct stat found;
    return fstat(file, &found) ? 0 : found.st_size;
}

// The bytes of the file from there to there.
static unsigned char *part(int file, off_t from, off_t to, size_t *size) {
    *size = to > from ? (size_t)(to - from) : 0;
    unsigned char *bytes = malloc(*size + 1);
    if (!bytes || pread(file, bytes, *size, from) != (ssize_t)*size)
        abort();
    return bytes;
}

// Keeps the bytes from there to there before they change.
static struct change *noted(int file, off_t from, off_t to) {
    if (!number("KILL_LOSE"))
        return NULL;
    struct change *it = calloc(1, sizeof *it);
    if (!it)
        abort();
    *it = (struct change){.before = last, .file = file, .at = from, .old_length = length_of(file)};
    it->old_bytes = part(file, from, to < it->old_length ? to : it->old_length, &it->old_size);
    return last = it;
}

static void done(struct change *it, off_t to) {
    if (!it)
        return;
    it->length = length_of(it->file);
    it->bytes = part(it->file, it->at, to < it->length ? to : it->length, &it->size);
}

// What was written to the file is now safe.
static void synced(int file) {
    for (struct change **at = &last; *at;) {
        struct change *it = *at;
        if (it->file != file) {
            at = &it->before;
            continue;
        }
        *at = it->before;
        free(it->old_bytes);
        free(it->bytes);
        free(it);
    }
}

// Does again some sectors of a change, or a cut.
static void again(const struct change *it) {
    if (it->is_cut && rand() % 2)
        plain_ftruncate(it->file, it->length);
    for (size_t from = 0; from < it->size;) {
        size_t rest = SECTOR - (size_t)(it->at + (off_t)from) % SECTOR;
        size_t size = rest < it->size - from ? rest : it->size - from;
        if (rand() % 2)
            plain_pwrite(it->file, it->bytes + from, size, it->at + (off_t)from);
        from += size;
    }
}

static void again_in_order(const struct change *it) {
    if (!it)
        return;
    again_in_order(it->before);
    again(it);
}

static void lose(void) {
    for (const struct change *it = last; it; it = it->before) {
        plain_pwrite(it->file, it->old_bytes, it->old_size, it->at);
        plain_ftruncate(it->file, it->old_length);
    }
    srand((unsigned)number("KILL_LOSE"));
    again_in_order(last);
}

// Returns true if the process ends at this call.
static int is_last(void) { return ++calls == number("KILL_AT"); }

static void end(void) {
    lose();
    kill(getpid(), SIGKILL);
    for (;;)
        pause();
}

// How many bytes a write moves before the process ends.
static size_t half(size_t size) { return number("KILL_HALF") ? size / 2 : 0; }

ssize_t pwrite(int file, const void *bytes, size_t size, off_t at) {
    int ends = is_last();
    off_t to = at + (off_t)size;
    struct change *it = noted(file, at, to);
    ssize_t moved = plain_pwrite(file, bytes, ends ? half(size) : size, at);
    done(it, to);
    if (ends)
        end();
    return moved;
}

ssize_t write(int file, const void *bytes, size_t size) {
    PLAIN("write", ssize_t, int, const void *, size_t);
    if (file == STDOUT_FILENO && told == 0)
        told = calls + 1;
    if (is_last()) {
        plain(file, bytes, half(size));
        end();
    }
    return plain(file, bytes, size);
}

int open(const char *path, int flags, ...) {
    PLAIN("open", int, const char *, int, ...);
    va_list more;
    va_start(more, flags);
    unsigned mode = flags & O_CREAT ? va_arg(more, unsigned) : 0;
    va_end(more);
    if (flags & O_CREAT && is_last())
        end();
    return plain(path, flags, mode);
}

int ftruncate(int file, off_t size) {
    if (is_last())
        end();
    struct change *it = noted(file, size, length_of(file));
    int answer = plain_ftruncate(file, size);
    done(it, size);
    if (it)
        it->is_cut = 1;
    return answer;
}

int unlink(const char *path) {
    PLAIN("unlink", int, const char *);
    if (is_last())
        end();
    return plain(path);
}

int fsync(int file) {
    PLAIN("fsync", int, int);
    if (is_last())
        end();
    synced(file);
    return plain(file);
}

int fdatasync(int file) {
    PLAIN("fdatasync", int, int);
    if (is_last())
        end();
    synced(file);
    return plain(file);
}

__attribute__((destructor)) static void tell(void) {
    const char *name = getenv("CALLS");
    long count = calls; // what follows writes too
    FILE *file = name ? fopen(name, "w") : NULL;
    if (!file)
        return;
    fprintf(file, "%ld %ld\n", count, told);
    fclose(file);
}
