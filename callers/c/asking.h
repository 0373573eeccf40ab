/* Questions to libdagcbor_memory_ffi.a, whose answers take their memory by malloc. Not proved, and no part of the
   library. */
#ifndef DAGCBOR_ASKING_H
#define DAGCBOR_ASKING_H

#include "dagcbor_memory.h"
#include <stdlib.h>

/* Bytes that are lent. */
typedef struct {
    const uint8_t *at;
    size_t length;
} Lent;

/* What a call is given: bytes, and for a record its key, or for an event what is known. And what it
   returns: a number, bytes, which the caller frees, and for a text a place. */
typedef struct {
    Lent bytes, key, root, rev;
    int32_t code;
    uint8_t *answer;
    size_t needed, place;
} Question;

typedef int32_t Call(Question *it, uint8_t *out, size_t room, size_t *needed);

/* A call of the library by its question: what it is given after the bytes. */
#define ASKS(name, call, ...)                                                            \
    static inline int32_t name(Question *it, uint8_t *out, size_t room, size_t *needed) { \
        return call(it->bytes.at, it->bytes.length, __VA_ARGS__);                        \
    }

ASKS(repository_of, dagcbor_repository, out, room, needed)
ASKS(commit_of, dagcbor_commit, out, room, needed)
ASKS(proof_of, dagcbor_record_proof, it->key.at, it->key.length, out, room, needed)
ASKS(event_of, dagcbor_verify_event, it->root.at, it->root.length, it->rev.at, it->rev.length, out, room, needed)
ASKS(json_of, dagcbor_to_json, out, room, needed)
ASKS(block_of, dagcbor_from_json, out, room, needed, &it->place)

/* Asks, and asks again if the answer has no room: the call says how much it needs. */
static inline void ask(Question *it, Call *call) {
    size_t room = it->bytes.length + 1024;
    do {
        free(it->answer);
        it->answer = malloc(room);
        it->code = it->answer ? call(it, it->answer, room, &it->needed) : DAGCBOR_NO_MEMORY;
        room = it->needed;
    } while (it->code == DAGCBOR_NO_ROOM);
}

#endif
