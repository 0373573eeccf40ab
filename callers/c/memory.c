/* Makes each call that takes memory with the heap of faults/heap.c, which refuses each allocation
   in turn: then the call is out of memory, and writes nothing.

     memory FILE [FRAME]

   It verifies the commit of the frame, reads the commit of a repository, proves a record of it, and
   reads it whole. If it is one, the block that tells of it goes to DAG-JSON and back. It prints how
   many allocations each call made. */
#undef NDEBUG
#include "asking.h"
#include <assert.h>
#include <stdio.h>
#include <string.h>

unsigned long stop_refusing(void);
void refuse_nth(unsigned long n);

enum { MOST = 1 << 16 };

static int32_t verified(Question *it, uint8_t *out, size_t room, size_t *needed) {
    size_t body, end;
    int32_t kind = dagcbor_event_frame(it->bytes.at, it->bytes.length, &body, &end);
    assert(0 < body && body < end && end == it->bytes.length);
    *needed = 0;
    return kind == DAGCBOR_FRAME_COMMIT ? event_of(it, out, room, needed) : kind;
}

static int32_t block_or_none(Question *it, uint8_t *out, size_t room, size_t *needed) {
    it->place = 7;
    int32_t code = block_of(it, out, room, needed);
    assert(it->place == (code == DAGCBOR_NO_MEMORY ? 0 : it->bytes.length));
    return code;
}

/* The answer of the call, and its length, which is the same again once no allocation is left to
 * refuse. */
static int32_t answer_of(Call *call, const uint8_t *given, size_t length, uint8_t out[MOST],
                         size_t *needed) {
    static uint8_t again[MOST];
    static const uint8_t key[] = "app.bsky.feed.post/self";
    Lent nothing = {dagcbor_from(NULL, 0), 0};
    Question it = {{given, length}, {key, sizeof key - 1}, nothing, nothing, 0, NULL, 0, 0};
    int32_t code = call(&it, out, MOST, needed);
    assert(code >= 0 && *needed <= MOST);
    for (unsigned long n = 1;; n++) {
        size_t counted = 7;
        memset(again, 0xa5, MOST);
        refuse_nth(n);
        int32_t answer = call(&it, again, MOST, &counted);
        if (!stop_refusing()) {
            assert(answer == code && counted == *needed && memcmp(again, out, counted) == 0);
            printf("%lu\n", n - 1);
            return code;
        }
        assert(answer == DAGCBOR_NO_MEMORY && counted == 0);
        for (size_t i = 0; i < MOST; i++) assert(again[i] == 0xa5);
    }
}

static size_t bytes_of(const char *path, uint8_t bytes[MOST]) {
    FILE *from = fopen(path, "rb");
    assert(from);
    size_t length = fread(bytes, 1, MOST, from);
    assert(feof(from) && fclose(from) == 0);
    return length;
}

int main(int count, char **paths) {
    static uint8_t file[MOST], block[MOST], text[MOST], back[MOST];
    assert(count == 2 || count == 3);
    size_t needed, size, again;
    if (count == 3) {
        size_t length = bytes_of(paths[2], file);
        assert(answer_of(verified, file, length, block, &needed) == DAGCBOR_VERIFIED && needed);
    }
    size_t length = bytes_of(paths[1], file);
    int32_t code = answer_of(commit_of, file, length, block, &needed);
    assert(answer_of(proof_of, file, length, text, &size) == code);
    if (code == DAGCBOR_REPOSITORY) { /* the proof has the same commit */
        assert(answer_of(commit_of, text, size, back, &again) == code);
        assert(again == needed && memcmp(block, back, needed) == 0);
    }
    if (answer_of(repository_of, file, length, block, &needed) != DAGCBOR_REPOSITORY) return 0;
    assert(answer_of(json_of, block, needed, text, &size) == DAGCBOR_MAP);
    assert(answer_of(block_or_none, text, size, back, &again) == DAGCBOR_MAP);
    assert(again == needed && memcmp(block, back, needed) == 0);
    return 0;
}
