/* Nanoseconds of each of a program's calls for the block of each file, the least of RUNS: PROGRAM RUNS FILE..
   One line for each file. */
#define _POSIX_C_SOURCE 200809L
#include "dagcbor.h"
#include <stdio.h>
#include <stdlib.h>
#include <time.h>

typedef struct {
    uint8_t *bytes, *out;
    dagcbor_token *tape; /* with a token's room for each byte */
    size_t length, count, needed;
    int is_good;
} Block;

enum { CALLS = 3 };

typedef void (*Call)(Block *);

static double now(void) {
    struct timespec time;
    clock_gettime(CLOCK_PROCESS_CPUTIME_ID, &time);
    return 1e9 * (double)time.tv_sec + (double)time.tv_nsec;
}

static void check(Block *it) { it->is_good &= dagcbor_check(it->bytes, it->length) >= 0; }

/* The time of one of this many calls. */
static double time_of(Call call, Block *block, long calls) {
    double start = now();
    for (long i = 0; i < calls; i++) call(block);
    return (now() - start) / (double)calls;
}

/* The least of each call, in turn: so what else the machine does falls on all of them. */
static void measure(const Call all[CALLS], Block *block, int runs, double least[CALLS]) {
    long calls[CALLS];
    for (int i = 0; i < CALLS; i++) calls[i] = 1 + (long)(1e7 / (1 + time_of(all[i], block, 16)));
    for (int i = 0; i < CALLS; i++) least[i] = 1e18;
    for (; runs > 0; runs--) {
        for (int i = 0; i < CALLS; i++) {
            double took = time_of(all[i], block, calls[i]);
            if (took < least[i]) least[i] = took;
        }
    }
}

static int read_block(const char *path, Block *block) {
    FILE *file = fopen(path, "rb");
    if (!file || fseek(file, 0, SEEK_END) != 0) return 0;
    block->length = (size_t)ftell(file);
    rewind(file);
    block->bytes = malloc(block->length);
    block->out = malloc(block->length);
    block->tape = malloc(block->length * sizeof *block->tape);
    block->is_good = 1;
    int is_read = block->bytes && block->out && block->tape &&
                  fread(block->bytes, 1, block->length, file) == block->length;
    fclose(file);
    return is_read;
}

static int measure_files(const Call all[CALLS], int count, char **words) {
    for (int i = 2; i < count; i++) {
        Block block;
        if (!read_block(words[i], &block)) return 2;
        double least[CALLS];
        measure(all, &block, atoi(words[1]), least);
        if (!block.is_good) return 1;
        printf("%g %g %g\n", least[0], least[1], least[2]);
    }
    return 0;
}
