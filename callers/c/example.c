/* Three examples: a block is judged, read, and written. `example` runs them, and its status is 0 if
   each answers as this file says, and the one that is printed is written. */
#undef NDEBUG
#include "dagcbor.h"
#include <assert.h>
#include <inttypes.h>
#include <stdbool.h>
#include <stdio.h>
#include <stdlib.h>
#include <string.h>

/* {"more": [true, null, h'ff'], "text": "hi", "year": -23}, with keys in the order of blocks */
static const uint8_t BLOCK[] = "\xa3\x64more\x83\xf5\xf6\x41\xff\x64text\x62hi\x64year\x36";
enum { LENGTH = sizeof BLOCK - 1 };

static void judge(void) {
    assert(dagcbor_check(BLOCK, LENGTH) == DAGCBOR_MAP);
    assert(dagcbor_check(BLOCK, LENGTH - 1) == DAGCBOR_EOF);
    assert(dagcbor_check(dagcbor_from(NULL, 0), 0) == DAGCBOR_EOF);
    /* 18 17 spells 23 in two bytes where one is enough. */
    int32_t code = dagcbor_check((const uint8_t *)"\x18\x17", 2);
    assert(code == DAGCBOR_NON_MINIMAL && strcmp(dagcbor_name_of_code(code), "NonMinimal") == 0);

    uint8_t name[36];
    dagcbor_name(BLOCK, LENGTH, name);
    assert(memcmp(name, "\x01\x71\x12\x20", 4) == 0);
}

/* Prints the item of the first token, and returns the token after it. No list or map is in more
 * than 127 others. */
static const dagcbor_token *print(FILE *to, const uint8_t *block, const dagcbor_token *token) {
    uint64_t count = token->number;
    const uint8_t *payload = block + token->place;
    const char *open = token->kind == DAGCBOR_LIST ? "[" : "{",
               *close = token->kind == DAGCBOR_LIST ? "]" : "}";
    bool is_map = token->kind == DAGCBOR_MAP;
    switch (token++->kind) {
    case DAGCBOR_NULL: fputs("null", to); break;
    case DAGCBOR_BOOL: fputs(count ? "true" : "false", to); break;
    case DAGCBOR_INTEGER: fprintf(to, "%" PRIu64, count); break;
    case DAGCBOR_NEGATIVE: fprintf(to, "-1 - %" PRIu64, count); break;
    case DAGCBOR_STRING: /* it may have zero bytes, and more bytes than an int counts */
        fputs("\"", to);
        fwrite(payload, 1, count, to);
        fputs("\"", to);
        break;
    case DAGCBOR_BYTES:
    case DAGCBOR_LINK:
        fputs(token[-1].kind == DAGCBOR_LINK ? "link'" : "h'", to);
        for (uint64_t i = 0; i < count; i++) fprintf(to, "%02x", payload[i]);
        fputs("'", to);
        break;
    case DAGCBOR_LIST:
    case DAGCBOR_MAP:
        fputs(open, to);
        for (uint64_t i = 0; i < count; i++) {
            if (i > 0) fputs(", ", to);
            if (is_map) token = print(to, block, token), fputs(": ", to);
            token = print(to, block, token);
        }
        fputs(close, to);
        break;
    }
    return token;
}

/* True if the block, of at most LENGTH bytes, is printed so. */
static bool is_printed(const uint8_t *block, size_t length, const char *wanted, size_t size) {
    /* A block has no more tokens than bytes. */
    dagcbor_token tape[LENGTH];
    char said[200] = "";
    size_t count;
    assert(dagcbor_tape(block, length, tape, LENGTH, &count) >= 0);
    FILE *to = fmemopen(said, sizeof said, "w");
    assert(to && print(to, block, tape) == tape + count);
    long end = ftell(to);
    assert(fclose(to) == 0);
    return end == (long)size && memcmp(said, wanted, size) == 0;
}

static void go_through(void) {
    static const char SAID[] =
        "{\"more\": [true, null, h'ff'], \"text\": \"hi\", \"year\": -1 - 22}";
    assert(is_printed(BLOCK, LENGTH, SAID, sizeof SAID - 1));
    puts(SAID);
    assert(is_printed((const uint8_t *)"\x63x\0y", 4, "\"x\0y\"", 5));
}

/* The block of some tokens, which the caller frees, and its length; NULL if they tell none. */
static uint8_t *spelled(const char *payloads, const dagcbor_token *tape, size_t count,
                        size_t *length) {
    const uint8_t *bytes = (const uint8_t *)payloads;
    size_t given = strlen(payloads);
    /* Without room it tells how much is needed. */
    if (dagcbor_spell(bytes, given, tape, count, dagcbor_into(NULL, 0), 0, length) !=
        DAGCBOR_NO_ROOM)
        return NULL;
    uint8_t *block = malloc(*length);
    if (block && dagcbor_spell(bytes, given, tape, count, block, *length, length) >= 0)
        return block;
    free(block);
    return NULL;
}

static void write_one(void) {
    /* For a text, its place in the payloads counts. Keys come in their order: the shorter first,
     * then by their bytes. */
    const char *payloads = "moretexthiyear\xff";
    dagcbor_token tape[] = {
        {DAGCBOR_MAP, 3, 0},       {DAGCBOR_STRING, 4, 0}, {DAGCBOR_LIST, 3, 0},
        {DAGCBOR_BOOL, 1, 0},      {DAGCBOR_NULL, 0, 0},   {DAGCBOR_BYTES, 1, 14},
        {DAGCBOR_STRING, 4, 4},    {DAGCBOR_STRING, 2, 8}, {DAGCBOR_STRING, 4, 10},
        {DAGCBOR_NEGATIVE, 22, 0},
    };
    size_t length;
    uint8_t *block = spelled(payloads, tape, 10, &length);
    assert(block && length == LENGTH && memcmp(block, BLOCK, LENGTH) == 0);
    free(block);
    tape[6].place = 0; /* the key `more` again: the judge refuses */
    assert(!spelled(payloads, tape, 10, &length));
}

int main(void) {
    judge();
    go_through();
    write_one();
    return ferror(stdout) || fflush(stdout) != 0;
}
