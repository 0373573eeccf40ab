/* What tests over the tables share. */
#ifndef DAGCBOR_ROWS_H
#define DAGCBOR_ROWS_H

#include "dagcbor.h"
#include <stdio.h>
#include <stdlib.h>
#include <string.h>

enum { MOST = 4096, LINE = 1 << 17 };

/* The bytes of hexadecimal text, and how many. A '-' is none, and a ',' joins links, each packed
 * after its length. */
static inline size_t from_hex(const char *text, uint8_t *out, int packed) {
    size_t count = 0, start = 0;
    unsigned byte;
    if (strcmp(text, "-") == 0) return 0;
    if (packed) count = 1;
    for (;; text += *text == ',') {
        while (sscanf(text, "%2x", &byte) == 1) {
            out[count++] = (uint8_t)byte;
            text += 2;
            if (*text == ',' || *text == 0) break;
        }
        if (packed && (*text == ',' || *text == 0)) out[start] = (uint8_t)(count - start - 1);
        if (*text == 0) return count;
        start = count++;
    }
}

/* A call that puts bytes into room. It puts all that it needs, or changes nothing. */
typedef int32_t Putter(const uint8_t *, size_t, uint8_t *, size_t, size_t *);

/* True if the wanted bytes are put. Without room for all of them the answer is `full`. */
static inline int puts_in_room(Putter *put, const uint8_t *bytes, size_t length, int code, int full,
                               const uint8_t *wanted, size_t count) {
    static uint8_t out[MOST];
    size_t needed = 99;
    memset(out, 0xee, sizeof out);
    /* Asked with one byte too few, it tells how many are needed, and puts none. */
    if (put(bytes, length, out, count ? count - 1 : 0, &needed) != full) return 0;
    if (needed != count || out[0] != 0xee) return 0;
    /* The usual way to ask how many are needed. */
    if (put(bytes, length, dagcbor_into(NULL, 0), 0, &needed) != full || needed != count) return 0;
    if (put(bytes, length, out, count, &needed) != code || needed != count) return 0;
    if (memcmp(out, wanted, count) != 0 || out[count] != 0xee) return 0;
    if (put(bytes, length, out, MOST, &needed) != code || needed != count) return 0;
    return memcmp(out, wanted, count) == 0 && out[count] == 0xee;
}

static inline int puts_right(Putter *put, const uint8_t *bytes, size_t length, int code,
                             const uint8_t *wanted, size_t count) {
    int full = count ? DAGCBOR_NO_ROOM : code;
    return puts_in_room(put, bytes, length, code, full, wanted, count);
}

/* The number of rows, each of this many words; or none if one gets another answer. */
static inline int rows_of(const char *name, int words, int is_right(char *const *)) {
    static char line[LINE];
    FILE *table = fopen(name, "r");
    int rows = 0;
    if (!table) return 0;
    while (fgets(line, sizeof line, table)) {
        char *field[8];
        if (line[0] == '#') continue;
        field[0] = strtok(line, " \n");
        for (int i = 1; i < words; i++) field[i] = strtok(NULL, " \n");
        if (!is_right(field)) return printf("wrong: %s\n", field[0]), 0;
        rows++;
    }
    fclose(table);
    return rows;
}

#endif
