/* Tests dagcbor_car_next, and car.h, on which the packages for Python and Node stand, with each
   file of a table: walk FILES. Each file is cut once at each of its bytes: the answer is what the
   row says, at the same places. Each is also put in one piece and in small ones, and then with each
   allocation failing in turn: the answer is right, or there is no memory. That is also so if the
   program computes digests. */
#include <stdlib.h>

static long left; /* allocations that are granted; below 0 all */

static int is_granted(void) { return left < 0 || left-- > 0; }

static void *some_realloc(void *start, size_t size) {
    return is_granted() ? realloc(start, size) : NULL;
}

static void *some_calloc(size_t count, size_t size) {
    return is_granted() ? calloc(count, size) : NULL;
}

#define realloc some_realloc
#define calloc some_calloc
#include "car.h"
#undef realloc
#undef calloc

#include "rows.h"
#include <inttypes.h>

enum { LONGEST = 1 << 16 };

static const uint8_t *file;
static size_t length;
static Digest *is_digest;

static int is_of_name(void *host, const uint8_t *block, size_t count, const uint8_t digest[32]) {
    uint8_t name[36];
    (void)host;
    dagcbor_name(block, count, name);
    return memcmp(name + 4, digest, 32) == 0;
}

/* Puts this many bytes more, or the end. */
static bool put_more(Check *check, size_t *at, size_t piece) {
    size_t count = length - *at < piece ? length - *at : piece;
    if (count == 0) check->car.is_whole = true;
    if (!car_gather(&check->car, file + *at, count)) return false;
    *at += count;
    return true;
}

/* Reads the file, by pieces of that size. Returns why it stopped. */
static int32_t walked(Check *check, size_t piece) {
    size_t at = 0;
    bool is_begun = false;
    for (;;) {
        int32_t code = is_begun ? check_sections(check, 100) : car_header(&check->car);
        if (code == DAGCBOR_CAR_MORE && put_more(check, &at, piece)) continue;
        if (code == DAGCBOR_CAR_MORE) return CAR_NO_MEMORY;
        if (code != 0 && code != DAGCBOR_CAR_HEADER) return code;
        if (!is_begun && !names_want(&check->names, check->car.roots.start, check->car.roots.used))
            return CAR_NO_MEMORY;
        is_begun = true;
    }
}

static int compare(const void *one, const void *other) { return strcmp(one, other); }

/* What is missing, as a row tells it. */
static void tell_missing(const Names *names, char *out) {
    static char all[64][2 * DAGCBOR_CID_MOST + 1];
    size_t count = 0;
    const uint8_t *from = names->packed.start;
    for (size_t at = 0; at < names->packed.used; at += 1 + (from[at] & NAME_LENGTH)) {
        if (from[at] & NAME_HELD) continue;
        for (int i = 0; i < from[at]; i++) sprintf(all[count] + 2 * i, "%02x", from[at + 1 + i]);
        count++;
    }
    qsort(all, count, sizeof *all, compare);
    strcpy(out, count ? all[0] : "-");
    for (size_t i = 1; i < count; i++) strcat(strcat(out, ","), all[i]);
}

/* True if the answer for the file is that of its row, or there was no memory, which is told. */
static bool is_right(size_t piece, const char *fault, const char *missing, bool *has_memory) {
    static char told[LONGEST];
    Check check;
    if (!check_start(&check)) exit(2);
    check.car.is_digest = is_digest;
    int32_t code = walked(&check, piece);
    *has_memory = code != CAR_NO_MEMORY && (code != DAGCBOR_CAR_END || check_inside(&check));
    strcpy(told, "-");
    if (code != DAGCBOR_CAR_END) sprintf(told, "%" PRId32 ":%" PRIu64, code, check.car.walk.place);
    bool is_well = !*has_memory || strcmp(told, fault) == 0;
    if (*has_memory && code == DAGCBOR_CAR_END) {
        tell_missing(&check.names, told);
        is_well = is_well && strcmp(told, missing) == 0;
    }
    check_free(&check);
    return is_well;
}

/* Each allocation fails, until all are granted. */
static bool fails_well(const char *fault, const char *missing) {
    bool has_memory = false;
    for (long granted = 0; !has_memory; granted++) {
        left = granted;
        if (!is_right(50, fault, missing, &has_memory)) return false;
    }
    left = -1;
    return true;
}

static bool holds(const char *fault, const char *missing) {
    bool has_memory;
    left = -1;
    for (size_t piece = 1; piece < 200; piece += 1 + piece / 4)
        if (!is_right(piece, fault, missing, &has_memory) || !has_memory) return false;
    return is_right(LONGEST, fault, missing, &has_memory) && fails_well(fault, missing);
}

static char *put_hex(char *out, const uint8_t *bytes, size_t count) {
    while (count--) out += sprintf(out, "%02x", *bytes++);
    return out;
}

static void put_roots(char *out, const uint8_t *block, size_t size) {
    static uint8_t links[LONGEST];
    size_t used;
    dagcbor_links(block, size, links, sizeof links, &used);
    for (size_t at = 0; at < used; at += 1 + links[at]) {
        if (at) *out++ = ',';
        out = put_hex(out, links + at + 1, links[at]);
    }
}

/* True if a section is told so: judged or not. */
static bool is_section(int32_t code, uint32_t how) {
    return how & DAGCBOR_CAR_UNJUDGED ? code == DAGCBOR_CAR_SECTION : is_verdict(code);
}

static char *put_section(char *out, const uint8_t *bytes, const size_t places[3], int32_t code) {
    const uint8_t *name = bytes + places[0], *block = bytes + places[1];
    size_t size = places[1] - places[0], count = places[2] - places[1];
    if (code == DAGCBOR_CAR_SECTION) code = dagcbor_verify(name, size, block, count);
    return put_hex(out, name, size) + sprintf(out + 2 * size, ":%zu:%" PRId32 ",", count, code);
}

/* What dagcbor_car_next answers for the file that is cut there, in the words of a row: all bytes
 * are at hand once those before the cut do not tell what comes next. */
static void tell_cut(size_t cut, uint32_t how, char *told) {
    static char roots[2 * LONGEST], sections[2 * LONGEST];
    dagcbor_car_walk walk = {0, 0, 0, 0};
    size_t end = cut, from, places[3];
    char *to = sections;
    int32_t code;
    strcpy(roots, "-"), strcpy(sections, "-");
    for (;;) {
        from = walk.place < end ? (size_t)walk.place : end;
        uint32_t last = end == length ? DAGCBOR_CAR_LAST : 0;
        code = dagcbor_car_next(&walk, file + from, end - from, how | last, places);
        if (code == DAGCBOR_CAR_MORE && !last) end = length;
        else if (code == DAGCBOR_CAR_HEADER)
            put_roots(roots, file + from + places[1], places[2] - places[1]);
        else if (walk.step && is_section(code, how))
            to = put_section(to, file + from, places, code);
        else break;
        if (code != DAGCBOR_CAR_MORE && walk.place != from + places[2]) code = 99;
        if (code == 99) break;
    }
    if (to != sections) to[-1] = 0;
    told += sprintf(told, "%s %s ", roots, sections);
    strcpy(told, "-");
    from = walk.place < length ? (size_t)walk.place : length;
    if (dagcbor_car_next(&walk, file + from, length - from, how | DAGCBOR_CAR_LAST, places) != code)
        code = 98;
    if (code != DAGCBOR_CAR_END) sprintf(told, "%" PRId32 ":%" PRIu64, code, walk.place);
}

/* Wherever the file is cut, the answer is what the row says. */
static bool are_right_cuts(char *const field[4]) {
    static char wanted[5 * LONGEST], told[5 * LONGEST];
    sprintf(wanted, "%s %s %s", field[1], field[2], field[3]);
    for (size_t cut = 0; cut <= length; cut += 1 + length / 1000)
        for (uint32_t how = 0; how <= DAGCBOR_CAR_UNJUDGED; how += DAGCBOR_CAR_UNJUDGED) {
            tell_cut(cut, how, told);
            if (strcmp(told, wanted) != 0) return false;
        }
    return true;
}

static int is_right_file(char *const field[5]) {
    static uint8_t bytes[LONGEST];
    static Digest *const ways[] = {NULL, is_of_name};
    length = from_hex(field[0], bytes, 0);
    file = bytes;
    if (!are_right_cuts(field)) return printf("where it is cut: "), 0;
    for (int way = 0; way < 2; way++) {
        is_digest = ways[way];
        if (!holds(field[3], field[4])) return 0;
    }
    return 1;
}

int main(int count, char **words) {
    int rows = count == 2 ? rows_of(words[1], 5, is_right_file) : 0;
    printf("%d files\n", rows);
    return rows < 40;
}
