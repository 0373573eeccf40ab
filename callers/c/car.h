/* Reads a CAR file (of version 1 or 2) as its bytes come, and keeps the names in it. Not proved,
   and no part of the library: dagcbor_car_next says what the bytes are, and nothing of a file is
   parsed here. It is for one thread at a time, and takes its memory by malloc. */
#ifndef DAGCBOR_CAR_H
#define DAGCBOR_CAR_H

#include "dagcbor.h"
#include <stdbool.h>
#include <stdlib.h>
#include <string.h>
#if defined(__linux__)
#include <sys/random.h>
#endif

/* Bytes that grow. */
typedef struct {
    uint8_t *start;
    size_t used, size;
} Bytes;

static inline void bytes_free(Bytes *bytes) {
    free(bytes->start);
    *bytes = (Bytes){NULL, 0, 0};
}

/* Room for this many bytes more; NULL if out of memory. */
static inline uint8_t *bytes_room(Bytes *bytes, size_t count) {
    if (count > bytes->size - bytes->used) {
        if (count > SIZE_MAX / 4 - bytes->used) return NULL;
        size_t wanted = bytes->used + count, twice = 2 * bytes->size;
        size_t size = wanted < twice ? twice : wanted;
        uint8_t *start = realloc(bytes->start, size);
        if (!start) return NULL;
        bytes->start = start;
        bytes->size = size;
    }
    return bytes->start + bytes->used;
}

static inline bool bytes_add(Bytes *bytes, const uint8_t *more, size_t count) {
    if (!count) return true;
    uint8_t *room = bytes_room(bytes, count);
    if (!room) return false;
    memcpy(room, more, count);
    bytes->used += count;
    return true;
}

/* What the program computes SHA-256 with, in place of the library. Above 0 if the block has the
 * digest, 0 if it does not, and below 0 if the call fails. */
typedef int Digest(void *host, const uint8_t *block, size_t length, const uint8_t digest[32]);

/* The file. At hand are `length` of its bytes at `bytes`, the first of which stands at `place` in
 * the file. They lie in `gathered`, unless they were lent. */
typedef struct {
    const uint8_t *bytes;
    size_t length;
    uint64_t place;
    dagcbor_car_walk walk, before; /* which the last answer moved, and as it was before */
    bool is_whole;                 /* no bytes follow those at hand */
    Bytes gathered, roots;         /* the roots are packed as dagcbor_links packs links */
    Digest *is_digest;             /* or NULL, and the library alone is asked */
    void *host;
} Car;

/* Why a walk stopped, beside what dagcbor_car_next answers. */
enum { CAR_NO_MEMORY = 102, CAR_FAILED = 103 };

static inline void car_free(Car *car) {
    bytes_free(&car->gathered);
    bytes_free(&car->roots);
}

static inline void car_start(Car *car) {
    memset(car, 0, sizeof *car);
    car->bytes = dagcbor_from(NULL, 0);
}

/* All bytes of the file, lent. */
static inline void car_lend(Car *car, const uint8_t *bytes, size_t length) {
    car->bytes = dagcbor_from(bytes, length);
    car->length = length;
    car->is_whole = true;
}

/* Lets go of the bytes that the walk has passed. */
static inline void car_pass(Car *car) {
    uint64_t passed = car->walk.place - car->place;
    size_t count = passed < car->length ? (size_t)passed : car->length;
    car->bytes += count;
    car->length -= count;
    car->place += count;
}

/* Takes bytes that follow. What is at hand stays at the front of what was gathered. When that grows
 * it gets twice the room: nothing is reserved from what a file says. */
static inline bool car_gather(Car *car, const uint8_t *more, size_t count) {
    Bytes *all = &car->gathered;
    car_pass(car);
    if (car->length && all->start != car->bytes) {
        memmove(all->start, car->bytes, car->length);
        car->bytes = all->start;
    }
    all->used = car->length;
    if (!bytes_add(all, more, count)) return false;
    car->bytes = dagcbor_from(all->start, all->used);
    car->length = all->used;
    return true;
}

/* Returns what comes next. Its places are counted from the bytes at hand, where they stay until the
 * next call. It looks at no more of them than this limit. */
static inline int32_t car_next(Car *car, size_t most, uint32_t how, size_t places[3]) {
    car_pass(car);
    car->before = car->walk;
    size_t looked = car->length < most ? car->length : most;
    if (car->is_whole && looked == car->length) how |= DAGCBOR_CAR_LAST;
    return dagcbor_car_next(&car->walk, car->bytes, looked, how, places);
}

/* The last answer was of no use, because memory ran out or the host failed: it is to come again. */
static inline int32_t car_back(Car *car, int32_t why) {
    car->walk = car->before;
    return why;
}

/* The front of the file: DAGCBOR_CAR_HEADER, and the roots are there. They take no more bytes than
 * the header's block. */
static inline int32_t car_header(Car *car) {
    size_t places[3];
    int32_t code = car_next(car, SIZE_MAX, 0, places);
    if (code != DAGCBOR_CAR_HEADER) return code;
    size_t length = places[2] - places[1];
    uint8_t *out = bytes_room(&car->roots, length);
    if (!out) return car_back(car, CAR_NO_MEMORY);
    dagcbor_links(car->bytes + places[1], length, out, length, &car->roots.used);
    return code;
}

/* The verdict on a section. If its CID is of version 1, of DAG-CBOR or raw bytes, by SHA-256, the
 * program computes the digest. */
static inline int32_t car_verdict(const Car *car, const size_t places[3]) {
    const uint8_t *name = car->bytes + places[0], *block = car->bytes + places[1];
    size_t length = places[2] - places[1];
    bool is_raw = memcmp(name, "\x01\x55\x12\x20", 4) == 0; /* no CID is shorter */
    int is_same = 0;
    if (is_raw || memcmp(name, "\x01\x71\x12\x20", 4) == 0)
        is_same = car->is_digest(car->host, block, length, name + 4);
    if (is_same < 0) return CAR_FAILED;
    if (!is_same) return dagcbor_verify(name, places[1] - places[0], block, length);
    return is_raw ? DAGCBOR_NOT_READ : dagcbor_check(block, length);
}

/* The verdict on the next section, or why there is none. */
static inline int32_t car_section(Car *car, size_t most, size_t places[3]) {
    int32_t code = car_next(car, most, car->is_digest ? DAGCBOR_CAR_UNJUDGED : 0, places);
    if (code == DAGCBOR_CAR_SECTION) code = car_verdict(car, places);
    return code == CAR_FAILED ? car_back(car, code) : code;
}

/* True if the number is that of a verdict, and not of why there is no section. */
static inline bool is_verdict(int32_t code) {
    return code >= DAGCBOR_NOT_VERIFIED && code <= DAGCBOR_NOT_READ;
}

/* True if a section of this verdict has the block that is named. */
static inline bool is_named(int32_t code) { return code > DAGCBOR_OTHER_BYTES; }

/* Puts the length of a section, in at most 10 bytes, and returns in how many. */
static inline size_t put_length(uint8_t *out, uint64_t length) {
    size_t at = 0;
    for (; length >= 128; length >>= 7) out[at++] = (uint8_t)(length & 127) | 128;
    out[at++] = (uint8_t)length;
    return at;
}

/* Names. Each is there once: a byte of its length, and its bytes. A bit of that byte says if a
 * block of that name is held; else the name is only wanted. */
typedef struct {
    Bytes packed;
    uint64_t *slots; /* where a name stands, counted from 1, and above it a part of its hash; or 0 */
    size_t count, mask;
    uint64_t key[2]; /* of the hash: who sends a file chooses its names */
} Names;

enum { NAME_HELD = 0x80, NAME_LENGTH = 0x7f, SLOT_BITS = 48 };

static inline void names_free(Names *names) {
    bytes_free(&names->packed);
    free(names->slots);
}

/* Starts with no name, and a key that nobody can foretell. False if there is none to be had. */
static inline bool names_start(Names *names) {
    memset(names, 0, sizeof *names);
#if defined(__linux__)
    return getrandom(names->key, sizeof names->key, 0) == sizeof names->key;
#else
    arc4random_buf(names->key, sizeof names->key);
    return true;
#endif
}

/* SipHash-1-3. */
static inline uint64_t rotated(uint64_t n, int by) { return n << by | n >> (64 - by); }

static inline void sip_round(uint64_t v[4]) {
    v[0] += v[1], v[1] = rotated(v[1], 13) ^ v[0], v[0] = rotated(v[0], 32);
    v[2] += v[3], v[3] = rotated(v[3], 16) ^ v[2];
    v[0] += v[3], v[3] = rotated(v[3], 21) ^ v[0];
    v[2] += v[1], v[1] = rotated(v[1], 17) ^ v[2], v[2] = rotated(v[2], 32);
}

static inline uint64_t sip_word(const uint8_t *bytes, size_t count) {
    uint64_t word = 0;
    memcpy(&word, bytes, count);
    return word;
}

static inline uint64_t hash_of(const Names *names, const uint8_t *bytes, size_t length) {
    uint64_t v[] = {names->key[0] ^ 0x736f6d6570736575, names->key[1] ^ 0x646f72616e646f6d,
                    names->key[0] ^ 0x6c7967656e657261, names->key[1] ^ 0x7465646279746573};
    size_t at = 0;
    for (; length - at >= 8; at += 8) {
        uint64_t word = sip_word(bytes + at, 8);
        v[3] ^= word, sip_round(v), v[0] ^= word;
    }
    uint64_t last = (uint64_t)length << 56 | sip_word(bytes + at, length - at);
    v[3] ^= last, sip_round(v), v[0] ^= last, v[2] ^= 0xff;
    for (int i = 0; i < 3; i++) sip_round(v);
    return v[0] ^ v[1] ^ v[2] ^ v[3];
}

static inline uint8_t *name_at(const Names *names, uint64_t slot) {
    return names->packed.start + (slot & (((uint64_t)1 << SLOT_BITS) - 1)) - 1;
}

/* The slot of the name, or the empty one that it would take. There is one. */
static inline uint64_t *slot_of(const Names *names, const uint8_t *name, size_t length,
                                uint64_t hash) {
    for (size_t at = hash & names->mask;; at = (at + 1) & names->mask) {
        uint64_t *slot = &names->slots[at];
        if (!*slot) return slot;
        const uint8_t *other = name_at(names, *slot);
        if (*slot >> SLOT_BITS == hash >> SLOT_BITS && (*other & NAME_LENGTH) == length &&
            memcmp(other + 1, name, length) == 0)
            return slot;
    }
}

static inline bool names_grow(Names *names) {
    size_t size = names->slots ? 2 * (names->mask + 1) : 64;
    uint64_t *slots = calloc(size, sizeof *slots);
    if (!slots) return false;
    free(names->slots);
    names->slots = slots;
    names->mask = size - 1;
    for (size_t at = 0; at < names->packed.used;) {
        const uint8_t *name = names->packed.start + at;
        size_t length = *name & NAME_LENGTH;
        uint64_t hash = hash_of(names, name + 1, length);
        *slot_of(names, name + 1, length, hash) = (hash >> SLOT_BITS << SLOT_BITS) | (at + 1);
        at += 1 + length;
    }
    return true;
}

/* Notes a name, which is held now, or wanted. False if out of memory. */
static inline bool names_note(Names *names, const uint8_t *name, size_t length, bool is_held) {
    size_t slots = names->slots ? names->mask + 1 : 0;
    uint8_t mark = is_held ? NAME_HELD : 0;
    if (names->count >= slots / 4 * 3 && !names_grow(names)) return false;
    uint64_t hash = hash_of(names, name, length), *slot = slot_of(names, name, length, hash);
    if (*slot) {
        *name_at(names, *slot) |= mark;
        return true;
    }
    uint8_t *room = bytes_room(&names->packed, 1 + length);
    if (!room) return false;
    *room = (uint8_t)length | mark;
    memcpy(room + 1, name, length);
    *slot = (hash >> SLOT_BITS << SLOT_BITS) | (names->packed.used + 1);
    names->packed.used += 1 + length;
    names->count++;
    return true;
}

/* Notes packed names, which are wanted. */
static inline bool names_want(Names *names, const uint8_t *packed, size_t length) {
    for (size_t at = 0; at < length; at += 1 + packed[at])
        if (!names_note(names, packed + at + 1, packed[at], false)) return false;
    return true;
}

/* The names that are held, or those that are not, packed: how long they are; and they are put to `out`, unless that is
 * NULL. */
static inline size_t names_pack(const Names *names, bool are_held, uint8_t *out) {
    const uint8_t *from = names->packed.start;
    size_t used = 0;
    for (size_t at = 0, length; at < names->packed.used; at += 1 + length) {
        length = from[at] & NAME_LENGTH;
        if (!!(from[at] & NAME_HELD) != are_held) continue;
        if (out) {
            out[used] = (uint8_t)length;
            memcpy(out + used + 1, from + at + 1, length);
        }
        used += 1 + length;
    }
    return used;
}

/* A file that is checked: how many verdicts there are by their numbers, from DAGCBOR_NOT_VERIFIED
 * on, and which names it holds and wants. */
enum { VERDICTS = 1 + DAGCBOR_NOT_READ - DAGCBOR_NOT_VERIFIED };

typedef struct {
    Car car;
    Names names;
    Bytes links;
    uint64_t verdicts[VERDICTS];
} Check;

static inline bool check_start(Check *check) {
    memset(check, 0, sizeof *check);
    car_start(&check->car);
    return names_start(&check->names);
}

static inline void check_free(Check *check) {
    car_free(&check->car);
    names_free(&check->names);
    bytes_free(&check->links);
}

/* Notes where a block's links lead. */
static inline bool check_links(Check *check, const uint8_t *block, size_t length) {
    Bytes *links = &check->links;
    size_t needed;
    if (dagcbor_links(block, length, dagcbor_into(links->start, links->size), links->size,
                      &needed) < 0)
        return true;
    if (needed > links->size) {
        if (!bytes_room(links, needed)) return false;
        dagcbor_links(block, length, links->start, links->size, &needed);
    }
    return names_want(&check->names, links->start, needed);
}

/* True if a CID by the identity hash holds its own block: what it ends with, after the byte that
 * says how long. The library says if that is the block of this name. */
static inline int32_t held_inside(const uint8_t *name, size_t length, size_t at) {
    if (name[at - 1] != length - at) return DAGCBOR_OTHER_BYTES;
    return dagcbor_verify(name, length, name + at, length - at);
}

/* Notes a section of this verdict. False if out of memory. */
static inline bool check_section(Check *check, int32_t code, const size_t places[3]) {
    const uint8_t *name = check->car.bytes + places[0], *block = check->car.bytes + places[1];
    bool is_read = code >= 0 && code != DAGCBOR_NOT_READ;
    if (is_named(code) && !names_note(&check->names, name, places[1] - places[0], true))
        return false;
    if (is_read && !check_links(check, block, places[2] - places[1])) return false;
    check->verdicts[code - DAGCBOR_NOT_VERIFIED]++;
    return true;
}

/* Takes the sections at hand, up to this many bytes. Returns why it stopped, or 0. */
static inline int32_t check_sections(Check *check, size_t most) {
    size_t places[3];
    for (size_t passed = 0; passed < most; passed += places[2]) {
        int32_t code = car_section(&check->car, SIZE_MAX, places);
        if (!is_verdict(code)) return code;
        if (!check_section(check, code, places)) return car_back(&check->car, CAR_NO_MEMORY);
    }
    return 0;
}

/* Follows the links of the names that hold their blocks themselves, which then count as held. */
static inline bool check_inside(Check *check) {
    Names *names = &check->names;
    for (size_t at = 0; at < names->packed.used;) {
        uint8_t name[1 + DAGCBOR_CID_MOST];
        size_t length = names->packed.start[at] & NAME_LENGTH;
        memcpy(name, names->packed.start + at, 1 + length);
        for (size_t from = 4; !(*name & NAME_HELD) && from <= length; from++) {
            int32_t code = held_inside(name + 1, length, from);
            if (!is_named(code)) continue;
            names->packed.start[at] |= NAME_HELD;
            if (code >= 0 && code != DAGCBOR_NOT_READ &&
                !check_links(check, name + 1 + from, length - from))
                return false;
            break;
        }
        at += 1 + length;
    }
    return true;
}

#endif
