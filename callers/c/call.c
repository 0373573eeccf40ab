/* Calls each export for each row of its table, except dagcbor_car_next, which walk.c has: call
 * TABLE SECTIONS TEXTS HEADERS SPANS PATHS SEGMENTS NODES MODELS. Prints the number of rows, or the
 * row that gets another answer. */
#include "rows.h"
#include <inttypes.h>
#include <stdbool.h>

/* The tokens of text, and how many. A '-' is none. */
static size_t from_tape(const char *text, dagcbor_token *tape) {
    size_t count = 0;
    char *at = (char *)text;
    if (strcmp(text, "-") == 0) return 0;
    for (;; at++) {
        tape[count].kind = strtoull(at, &at, 10);
        tape[count].number = strtoull(at + 1, &at, 10);
        tape[count++].place = strtoull(at + 1, &at, 10);
        if (*at == 0) return count;
    }
}

/* The tokens of a block tell the block again. */
static int is_spelled(const uint8_t *bytes, size_t length, int check, const dagcbor_token *tape,
                      size_t count) {
    static uint8_t out[MOST];
    size_t needed = 99;
    memset(out, 0xee, sizeof out);
    if (dagcbor_spell(bytes, length, tape, count, out, length - 1, &needed) != DAGCBOR_NO_ROOM)
        return 0;
    if (needed != length || out[0] != 0xee) return 0;
    if (dagcbor_spell(bytes, length, tape, count, out, MOST, &needed) != check || needed != length)
        return 0;
    return memcmp(out, bytes, length) == 0 && out[length] == 0xee;
}

static int is_right_tape(const uint8_t *bytes, size_t length, int check, const char *text) {
    static dagcbor_token wanted[MOST], tape[MOST];
    size_t count = from_tape(text, wanted), needed = 99;
    memset(tape, 0xee, sizeof tape);
    /* Asked with room for one too few it tells how many there are, and puts none. */
    if (dagcbor_tape(bytes, length, tape, count ? count - 1 : 0, &needed) != check) return 0;
    if (needed != count || count > length || tape[0].kind != 0xeeeeeeeeeeeeeeee) return 0;
    if (dagcbor_tape(bytes, length, dagcbor_tape_into(NULL, 0), 0, &needed) != check ||
        needed != count)
        return 0;
    if (dagcbor_tape(bytes, length, tape, count, &needed) != check || needed != count) return 0;
    if (memcmp(tape, wanted, count * sizeof *tape) != 0 || tape[count].kind != 0xeeeeeeeeeeeeeeee)
        return 0;
    if (dagcbor_tape(bytes, length, tape, MOST, &needed) != check) return 0;
    return memcmp(tape, wanted, count * sizeof *tape) == 0 &&
           (check < 0 || is_spelled(bytes, length, check, tape, count));
}

/* The compact tokens are those of the tape. */
static int is_right_compact_tape(const uint8_t *bytes, size_t length, int check, const char *text) {
    static dagcbor_token wanted[MOST];
    static dagcbor_compact_token tape[MOST];
    size_t count = from_tape(text, wanted), needed = 99;
    memset(tape, 0xee, sizeof tape);
    /* Asked with room for one too few it tells how many there are, and puts none. */
    if (dagcbor_compact_tape(bytes, length, tape, count ? count - 1 : 0, &needed) != check) return 0;
    if (needed != count || tape[0].kind != 0xeeeeeeee) return 0;
    if (dagcbor_compact_tape(bytes, length, tape, count, &needed) != check || needed != count) return 0;
    for (size_t i = 0; i < count; i++) {
        uint64_t kind = wanted[i].kind, number = wanted[i].number, place = wanted[i].place;
        int is_ascii = kind == DAGCBOR_STRING;
        if (kind == DAGCBOR_INTEGER || kind == DAGCBOR_NEGATIVE) place = number >> 32;
        for (size_t at = 0; is_ascii && at < number; at++) is_ascii = bytes[place + at] < 0x80;
        if (tape[i].kind != (is_ascii ? DAGCBOR_ASCII : kind)) return 0;
        if (tape[i].number != (uint32_t)number || tape[i].place != place) return 0;
    }
    return tape[count].kind == 0xeeeeeeee;
}

/* For a block the tokens are those of its tape. For refused bytes they stand before the place. */
static int are_right_tokens(const uint8_t *bytes, size_t length, int check, char *const field[8]) {
    static dagcbor_token wanted[MOST], tape[MOST];
    size_t count = from_tape(field[check < 0 ? 7 : 5], wanted), needed = 99, place = 99;
    size_t wanted_place = check < 0 ? strtoull(field[6], NULL, 10) : length;
    memset(tape, 0xee, sizeof tape);
    /* Asked with room for one too few it tells how many there are, and puts none. */
    if (dagcbor_tokens(bytes, length, tape, count ? count - 1 : 0, &needed, &place) != check)
        return 0;
    if (needed != count || place != wanted_place || tape[0].kind != 0xeeeeeeeeeeeeeeee) return 0;
    needed = place = 99;
    if (dagcbor_tokens(bytes, length, tape, count, &needed, &place) != check) return 0;
    if (needed != count || place != wanted_place) return 0;
    return memcmp(tape, wanted, count * sizeof *tape) == 0 &&
           tape[count].kind == 0xeeeeeeeeeeeeeeee;
}

static int is_right_block(char *const field[8]) {
    static uint8_t block[MOST], links[MOST], wanted_name[MOST], name[36];
    size_t length = from_hex(field[0], block, 0), packed = from_hex(field[3], links, 1);
    const uint8_t *bytes = dagcbor_from(length ? block : NULL, length);
    int check = atoi(field[1]), first = atoi(field[2]);
    from_hex(field[4], wanted_name, 0);
    if (dagcbor_check(bytes, length) != check) return 0;
    if (!puts_in_room(dagcbor_links, bytes, length, first, first, links, packed)) return 0;
    if (!is_right_tape(bytes, length, check, field[5])) return 0;
    if (!is_right_compact_tape(bytes, length, check, field[5])) return 0;
    if (!are_right_tokens(bytes, length, check, field)) return 0;
    dagcbor_name(bytes, length, name);
    return memcmp(name, wanted_name, 36) == 0;
}

/* As far as a path leads, and if all of it does. After a refusal the places stay. */
static int is_right_path(char *const field[6]) {
    static uint8_t block[MOST], path[MOST];
    size_t length = from_hex(field[0], block, 0), path_length = from_hex(field[1], path, 0);
    size_t places[] = {99, 98, 97, 96}, wanted[] = {99, 98, 97, 96}, place = 99, end = 98;
    const uint8_t *bytes = dagcbor_from(block, length), *text = dagcbor_from(path, path_length);
    int code = atoi(field[2]);
    for (int i = 0; i < 3 && code >= 0; i++) wanted[i] = strtoull(field[3 + i], NULL, 10);
    if (dagcbor_follow(bytes, length, text, path_length, places) != code) return 0;
    if (memcmp(places, wanted, sizeof wanted) != 0) return 0;
    if (code >= 0 && wanted[2] < path_length) code = DAGCBOR_NO_SUCH_PATH;
    if (code < 0) wanted[0] = 99, wanted[1] = 98;
    if (dagcbor_find(bytes, length, text, path_length, &place, &end) != code) return 0;
    return place == wanted[0] && end == wanted[1];
}

/* A call for each segment, in the bytes of the item to which those before it lead. If one leads
 * nowhere, or is refused, the places stay. */
static int are_right_segments(char *const field[5]) {
    static uint8_t block[MOST], text[MOST];
    size_t length = from_hex(field[0], block, 0), begin = 0, end = length;
    const uint8_t *bytes = dagcbor_from(block, length);
    int code = dagcbor_check(bytes, length);
    for (char *it = strtok(field[1], "/"); code >= 0 && it; it = strtok(NULL, "/")) {
        size_t place = 99, behind = 98, count = from_hex(it, text, 0);
        code = dagcbor_part(bytes + begin, end - begin, dagcbor_from(text, count), count, &place,
                            &behind);
        if (code < 0 && (place != 99 || behind != 98)) return 0;
        if (code >= 0) end = begin + behind, begin += place;
    }
    if (code != atoi(field[2])) return 0;
    if (code < 0) return 1;
    return begin == strtoull(field[3], NULL, 10) && end == strtoull(field[4], NULL, 10);
}

/* If no section begins the bytes, the places stay. For the name and the block of a section the
 * verdict is the same. */
static int is_right_section(char *const field[3]) {
    static uint8_t bytes[MOST];
    size_t length = from_hex(field[0], bytes, 0), places[] = {99, 98, 97, 96};
    size_t wanted[] = {99, 98, 97, 96};
    const char *text = field[2];
    if (*text != '-' && sscanf(text, "%zu:%zu:%zu", &wanted[0], &wanted[1], &wanted[2]) != 3)
        return 0;
    if (dagcbor_car_section(dagcbor_from(bytes, length), length, places) != atoi(field[1]))
        return 0;
    if (memcmp(places, wanted, sizeof wanted) != 0) return 0;
    if (places[0] == 99) return 1;
    const uint8_t *cid = bytes + places[0], *block = bytes + places[1];
    size_t size = places[1] - places[0], count = places[2] - places[1];
    return dagcbor_verify(cid, size, block, count) == atoi(field[1]) &&
           dagcbor_verify(cid, size - 1, block, count) == DAGCBOR_INVALID_CID;
}

/* The place that is to be told beside what is put, and if it was each time. */
static size_t told_place;
static bool are_places;

/* The end of a header is told beside its roots; if no header begins the bytes it stays. */
static int32_t roots_of(const uint8_t *bytes, size_t length, uint8_t *out, size_t room,
                        size_t *needed) {
    size_t end = 99;
    int32_t code = dagcbor_car_header(bytes, length, out, room, needed, &end);
    are_places = are_places && end == told_place;
    return code;
}

static int is_right_header(char *const field[4]) {
    static uint8_t header[MOST], roots[MOST];
    size_t length = from_hex(field[0], header, 0), count = from_hex(field[2], roots, 1);
    const uint8_t *bytes = dagcbor_from(header, length);
    int code = atoi(field[1]);
    told_place = code == 0 ? strtoull(field[3], NULL, 10) : 99;
    are_places = true;
    return puts_in_room(roots_of, bytes, length, code, code, roots, count) && are_places;
}

/* If the front of the file says nothing, the places stay. */
static int is_right_span(char *const field[3]) {
    static uint8_t bytes[MOST];
    size_t length = from_hex(field[0], bytes, 0);
    uint64_t places[] = {99, 98, 97}, wanted[] = {99, 98, 97};
    const char *text = field[2];
    if (*text != '-' && sscanf(text, "%" SCNu64 ":%" SCNu64, &wanted[0], &wanted[1]) != 2) return 0;
    if (dagcbor_car_span(dagcbor_from(bytes, length), length, places) != atoi(field[1])) return 0;
    return memcmp(places, wanted, sizeof wanted) == 0;
}

/* A text is read as its CID, and the CID is written as its text. The CID without its last byte is
 * refused. */
static int is_right_text(char *const field[4]) {
    static uint8_t cid[MOST];
    size_t length = strcmp(field[0], "-") ? strlen(field[0]) : 0, count = from_hex(field[2], cid, 0);
    const uint8_t *text = dagcbor_from((const uint8_t *)field[0], length);
    const uint8_t *written = (const uint8_t *)field[3];
    if (!puts_right(dagcbor_cid_from_text, text, length, atoi(field[1]), cid, count)) return 0;
    if (count == 0) return 1;
    return puts_right(dagcbor_cid_text, cid, count, 0, written, strlen(field[3])) &&
           puts_right(dagcbor_cid_text, cid, count - 1, DAGCBOR_INVALID_CID, written, 0);
}

static int32_t from_node(const uint8_t *node, size_t length, uint8_t *out, size_t room,
                         size_t *needed) {
    size_t place = 99;
    int32_t code = dagcbor_from_node(node, length, out, room, needed, &place);
    are_places = are_places && place == told_place;
    return code;
}

static int32_t node_links(const uint8_t *node, size_t length, uint8_t *out, size_t room,
                          size_t *needed) {
    size_t place = 99;
    int32_t code = dagcbor_node_links(node, length, out, room, needed, &place);
    are_places = are_places && place == (code < 0 ? told_place : 0);
    return code;
}

static int is_right_node(char *const field[6]) {
    static uint8_t node[MOST], block[MOST], links[MOST];
    size_t length = from_hex(field[0], node, 0), count = from_hex(field[3], block, 0);
    size_t packed = from_hex(field[5], links, 1);
    const uint8_t *bytes = dagcbor_from(node, length);
    int code = atoi(field[4]);
    told_place = strtoull(field[2], NULL, 10);
    are_places = true;
    return puts_right(from_node, bytes, length, atoi(field[1]), block, count) &&
           puts_in_room(node_links, bytes, length, code, code, links, packed) && are_places;
}

static int is_right_model(char *const field[3]) {
    static uint8_t block[MOST], node[MOST];
    size_t length = from_hex(field[0], block, 0), count = from_hex(field[2], node, 0);
    const uint8_t *bytes = dagcbor_from(block, length);
    return puts_right(dagcbor_to_node, bytes, length, atoi(field[1]), node, count);
}

int main(int count, char **words) {
    bool is_whole = count == 10;
    int blocks = is_whole ? rows_of(words[1], 8, is_right_block) : 0;
    int sections = is_whole ? rows_of(words[2], 3, is_right_section) : 0;
    int texts = is_whole ? rows_of(words[3], 4, is_right_text) : 0;
    int headers = is_whole ? rows_of(words[4], 4, is_right_header) : 0;
    int spans = is_whole ? rows_of(words[5], 3, is_right_span) : 0;
    int paths = is_whole ? rows_of(words[6], 6, is_right_path) : 0;
    int segments = is_whole ? rows_of(words[7], 5, are_right_segments) : 0;
    int nodes = is_whole ? rows_of(words[8], 6, is_right_node) : 0;
    int models = is_whole ? rows_of(words[9], 3, is_right_model) : 0;
    printf("%d blocks, %d sections, %d texts, %d headers, %d spans, %d paths, %d of segments, %d nodes, "
           "%d models\n",
           blocks, sections, texts, headers, spans, paths, segments, nodes, models);
    return !blocks || !sections || !texts || !headers || !spans || !paths || !segments || !nodes ||
           !models;
}
