/* Measures how much stack a thread uses in the calls of dagcbor.h: at most what the header says
   that it has left. It asks about the deepest blocks that are read, and about deeper ones, and
   prints the most bytes that are used. */
#undef NDEBUG
#define _POSIX_C_SOURCE 200809L
#include "dagcbor.h"
#include <assert.h>
#include <pthread.h>
#include <stdio.h>
#include <stdlib.h>
#include <string.h>

enum { TOLD = 128 << 10, WHOLE = 4 << 20, MOST = 1 << 18, PAINT = 0xc3 };

static uint8_t bytes[MOST], out[MOST];
static dagcbor_token tape[MOST];
static size_t length;

static void *nothing(void *given) { return given; }

/* Each call that judges these bytes, or goes through them. */
static void *calls(void *given) {
    static const uint8_t path[] = "0/0/x/x";
    dagcbor_compact_token *compact = (dagcbor_compact_token *)tape;
    size_t count, place, places[3];
    dagcbor_check(bytes, length);
    dagcbor_compact_tape(bytes, length, compact, MOST, &count);
    dagcbor_tokens(bytes, length, tape, MOST, &count, &place);
    dagcbor_spell(bytes, length, tape, count, out, sizeof out, &place);
    dagcbor_tape(bytes, length, tape, MOST, &count);
    dagcbor_spell(bytes, length, tape, count, out, sizeof out, &place);
    dagcbor_links(bytes, length, out, sizeof out, &count);
    dagcbor_find(bytes, length, path, sizeof path - 1, &place, &count);
    dagcbor_part(bytes, length, path, 1, &place, &count);
    dagcbor_follow(bytes, length, path, sizeof path - 1, places);
    dagcbor_name(bytes, length, out);
    memcpy(out + 36, out, 36);
    dagcbor_verify(out + 36, 36, bytes, length);
    dagcbor_cid_text(out + 36, 36, out, 36, &count);
    dagcbor_to_node(bytes, length, out, sizeof out, &count);
    return given;
}

/* How many bytes of its stack a thread used: those that are not as they were painted. */
static size_t used(void *run(void *)) {
    static void *stack;
    pthread_attr_t how;
    pthread_t thread;
    if (!stack) assert(posix_memalign(&stack, 4096, WHOLE) == 0);
    memset(stack, PAINT, WHOLE);
    assert(pthread_attr_init(&how) == 0 && pthread_attr_setstack(&how, stack, WHOLE) == 0);
    assert(pthread_create(&thread, &how, run, NULL) == 0 && pthread_join(thread, NULL) == 0);
    size_t left = 0;
    while (left < WHOLE && ((uint8_t *)stack)[left] == PAINT) left++;
    return WHOLE - left;
}

/* What is used if a null has this around it, so many times. */
static size_t used_for(const char *around, size_t size, size_t count) {
    length = 0;
    for (; count-- && length + size < MOST; length += size) memcpy(bytes + length, around, size);
    bytes[length++] = 0xf6;
    return used(calls) - used(nothing);
}

int main(void) {
    static const size_t counts[] = {127, 128, MOST};
    size_t most = 0;
    for (int i = 0; i < 3; i++) {
        size_t lists = used_for("\x81", 1, counts[i]), maps = used_for("\xa1\x61x", 3, counts[i]);
        if (most < lists) most = lists;
        if (most < maps) most = maps;
    }
    printf("%zu bytes\n", most);
    return most > TOLD;
}
