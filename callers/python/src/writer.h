/* A block as it is written: dagcbor_check then says if it is one. */
#ifndef DAGCBOR_WRITER_H
#define DAGCBOR_WRITER_H

#include "native.h"

/* Of lists and maps in each other, in any block. */
enum { MOST_LEVELS = 128 };

/* Bytes one after the other, the first of them in the room itself. */
typedef struct {
    char *start;
    size_t used, size;
    union {
        char bytes[2048];
        void *pointer;
    } first;
} Room;

static inline void room_start(Room *room) {
    room->start = room->first.bytes;
    room->used = 0;
    room->size = sizeof room->first.bytes;
}

static inline void room_free(Room *room) {
    if (room->start != room->first.bytes) PyMem_Free(room->start);
}

/* Takes this many bytes more; NULL if out of memory. What was taken before may move. */
static inline void *room_take(Room *room, size_t count) {
    if (count > room->size - room->used) {
        bool is_first = room->start == room->first.bytes;
        if (count > SIZE_MAX / 4 - room->used) return NULL;
        size_t size = 2 * (room->used + count);
        char *start = PyMem_Realloc(is_first ? NULL : room->start, size);
        if (!start) return NULL;
        if (is_first) memcpy(start, room->first.bytes, room->used);
        room->start = start;
        room->size = size;
    }
    room->used += count;
    return room->start + room->used - count;
}

/* Adds bytes. False if out of memory. */
static inline bool put_bytes(Room *room, const void *bytes, size_t length) {
    char *at = room_take(room, length);
    if (at && length) memcpy(at, bytes, length);
    return at;
}

/* Adds a head, in the fewest bytes. */
static inline bool put_head(Room *room, uint64_t kind, uint64_t number) {
    static const uint8_t firsts[] = {
        [DAGCBOR_NULL] = 0xf6,  [DAGCBOR_BOOL] = 0xf4,   [DAGCBOR_INTEGER] = 0x00,
        [DAGCBOR_BYTES] = 0x40, [DAGCBOR_STRING] = 0x60, [DAGCBOR_NEGATIVE] = 0x20,
        [DAGCBOR_LIST] = 0x80,  [DAGCBOR_MAP] = 0xa0,
    };
    uint8_t head[9] = {firsts[kind]};
    int power = number >> 32 ? 3 : number >> 16 ? 2 : number >> 8 ? 1 : 0;
    size_t width = number < 24 ? 0 : (size_t)1 << power;
    head[0] += number < 24 ? (uint8_t)number : (uint8_t)(24 + power);
    for (size_t i = width; i > 0; i--, number >>= 8) head[i] = (uint8_t)number;
    return put_bytes(room, head, 1 + width);
}

/* Adds a string, bytes, or a CID as a link. */
static inline bool put_payload(Room *room, uint64_t kind, const void *bytes, size_t length) {
    bool is_link = kind == DAGCBOR_LINK;
    if (is_link && !put_bytes(room, "\xd8\x2a", 2)) return false;
    if (!put_head(room, is_link ? DAGCBOR_BYTES : kind, is_link + length)) return false;
    return (!is_link || put_bytes(room, "", 1)) && put_bytes(room, bytes, length);
}

/* An entry of a map: its key's UTF-8, and whatever tells its value. */
typedef struct {
    const char *text;
    size_t length;
    void *key, *value;
} Entry;

/* The order of keys: the shorter first, then by their bytes. */
static inline int compare_entries(const void *one, const void *other) {
    const Entry *a = one, *b = other;
    if (a->length != b->length) return a->length < b->length ? -1 : 1;
    return memcmp(a->text, b->text, a->length);
}

static inline void sort_entries(Entry *entries, size_t count) {
    for (size_t i = 1; i < count; i++) {
        if (compare_entries(&entries[i - 1], &entries[i]) <= 0) continue;
        qsort(entries, count, sizeof *entries, compare_entries);
        return;
    }
}

#endif
