/* The calls of DAG-CBOR for C that take memory: blocks as DAG-JSON, and back; repositories of signed records (AT Protocol):
   what one holds, verified, or why a file is not one, its commit alone, and files that prove a record; and the frames in which
   a host tells of changes, with each commit verified.

   Link with libdagcbor_memory_ffi.a, and with functions of the heap: callers/c/heap.c has them over malloc, realloc and free.
   It needs dagcbor.h beside it, and not the other library. A call holds what it makes of the bytes, and the answer, beside
   them; for a repository it holds the file's blocks and its records.

   What a caller owes, which nothing checks:
   - No pointer to bytes is NULL, even if their length is 0 (dagcbor_from), those to a key, a root and a revision neither;
     so many bytes stand there, and nobody writes them during the call, no other thread either; each length is below 2^63.
   - `out` likewise, even if `room` is 0 (dagcbor_into), for `room` bytes that nobody else reads or writes during the
     call; `needed`, `place`, `body` and `end` for one number each. What the call may write overlaps nothing else that it is
     given; what it only reads may overlap.
   - The functions of the heap are of one allocator. They align memory as malloc does, to each power of two up to 16
     that divides its size; they say if there is none; and several threads may call them at once, if several
     make the call.
   - No signal handler calls it, nor the child that a process with threads forked.
   - The thread has 1 MB of stack left; the CPU is an x86-64-v2, or an aarch64.
   Calls on different threads need no lock: nothing is shared between them but the heap.

   *needed becomes the length of the answer. If that is at most `room` it is put at the front of `out`. Else `out` stays as it
   was, and the call returns DAGCBOR_NO_ROOM: the same call with *needed bytes of room puts it. If memory runs out the call
   returns DAGCBOR_NO_MEMORY, which says nothing of the bytes. Then, and after any other number below 0, *needed is 0, and `out`
   as it was; but with three numbers dagcbor_verify_event puts a CID. */
#ifndef DAGCBOR_MEMORY_H
#define DAGCBOR_MEMORY_H

#include "dagcbor.h"

#ifdef __cplusplus
extern "C" {
#endif

/* Writes the data of a block as DAG-JSON, in one line without spaces or a line feed: UTF-8, keys in the order of their bytes,
   bytes as {"/":{"bytes":".."}} in base64 without padding, links as {"/":".."}. Returns the kind, from 0, exactly if the bytes
   are a block in which no map has the key /. Else it returns, below 0, DAGCBOR_JSON_RESERVED_KEY, because such a map would look
   like a link or like bytes; or the refusal of dagcbor_check, and then no memory was taken. */
int32_t dagcbor_to_json(const uint8_t *block, size_t length, uint8_t *out, size_t room, size_t *needed);

/* Writes the block of the data that a text is, in DAG-JSON: with spaces, escapes and keys in any order, as JSON has them. The
   text of a CID may be any that dagcbor_cid_from_text reads. Returns the kind, from 0, exactly if the text is such data; what
   is put is a block, and *place becomes `length`. Else it returns, below 0, the fault that stands in the text: the first from
   the left, but what is not JSON comes first. *place becomes where the fault is, from 0 to `length`: for DAGCBOR_JSON_NO_TEXT
   the first byte that is not UTF-8; what it tells for the others is only tested. If memory runs out *place is 0. */
int32_t dagcbor_from_json(const uint8_t *text, size_t length, uint8_t *out, size_t room, size_t *needed, size_t *place);

enum dagcbor_repository_answer {
    DAGCBOR_REPOSITORY = 0,   /* `out` has the block, or the file, that is asked for */
    DAGCBOR_NO_REPOSITORY = 1 /* `out` has a line that tells why it is not one */
};

/* Reads a CAR file (version 1 or 2) with one root, whose commit and tree are whole, and each block of them the one of its name.
   Writes a block of DAG-CBOR, the map of
     "did", "rev"  texts
     "sig"         bytes: the signature
     "data"        a link: the root of the tree
     "prev"        a link, or null
     "signed"      bytes: what the signature is of, the block of the commit without it
     "records"     a list of lists of two, in the order of keys: a record's key, as bytes, and a link to it
   The signature is not checked; records need not be in the file. For any other file it writes one line, in ASCII, with a line
   feed at its end: what `dagcar records` tells (docs/REPOSITORIES.md). */
int32_t dagcbor_repository(const uint8_t *file, size_t length, uint8_t *out, size_t room, size_t *needed);

/* Reads a CAR file (version 1 or 2) whose first root names a commit, and the block of that name. Writes a block of DAG-CBOR,
   the map of
     "cid"         a link: the commit's name
     "did", "rev", "sig", "data", "prev", "signed"  as dagcbor_repository has them
   No other block need be there, so the slices that a frame of a stream and com.atproto.sync.getRecord carry are enough. For any
   other file it writes one line, what `dagcar commit` tells. Returns DAGCBOR_REPOSITORY, or DAGCBOR_NO_REPOSITORY. */
int32_t dagcbor_commit(const uint8_t *file, size_t length, uint8_t *out, size_t room, size_t *needed);

/* Reads a CAR file whose first root names a commit. Writes a file (CAR, version 1) that proves which record the key has, or
   that it has none: its root is the commit, and its blocks are the commit, the nodes on the way to the key, and the record, if
   there is one, each once. These blocks need be in the file, each the one of its name, and no others. `key` is the key itself,
   of any bytes. For any other file it writes one line, what `dagcar record-proof` tells. Returns DAGCBOR_REPOSITORY, or
   DAGCBOR_NO_REPOSITORY. */
int32_t dagcbor_record_proof(const uint8_t *file, size_t length, const uint8_t *key, size_t key_length, uint8_t *out,
                             size_t room, size_t *needed);

/* The kinds of frames of com.atproto.sync.subscribeRepos. */
enum dagcbor_frame_kind {
    DAGCBOR_FRAME_COMMIT = 0,
    DAGCBOR_FRAME_SYNC = 1,
    DAGCBOR_FRAME_IDENTITY = 2,
    DAGCBOR_FRAME_ACCOUNT = 3,
    DAGCBOR_FRAME_INFO = 4,
    DAGCBOR_FRAME_ERROR = 5, /* the host ends the stream */
    DAGCBOR_FRAME_OTHER = 6  /* a kind of another name, whose body is any block */
};

/* Returns the kind, from 0, exactly if a frame stands at the front of the bytes: two blocks of DAG-CBOR, a header and a body
   that has the fields of its kind. Else it returns, below 0, a number of dagcbor_event_answer, to DAGCBOR_FRAME_NO_BODY. Or it
   returns DAGCBOR_NO_MEMORY: then a frame may be there, and who passes over it loses it. If two items stand at the front by
   their heads, *body becomes where the second begins and *end where it ends, even if they are not a frame, so that the next one
   is found. Else, for DAGCBOR_FRAME_NO_END alone, both become 0: more bytes may be needed, or a head there is not DAG-CBOR. */
int32_t dagcbor_event_frame(const uint8_t *bytes, size_t length, size_t *body, size_t *end);

/* Verifies the commit in the frame at the front of the bytes. Returns DAGCBOR_VERIFIED, and writes a block of DAG-CBOR, the map
   of
     "cid"       a link: the name of the commit
     "before"    a link: the root of the tree before
     "commit"    what the block of the commit has: the map of "did" and "rev", texts, "version", 3, "data", a link to the root
                 of its tree, "prev", a link or null, and "sig", bytes: the signature, which is not checked
     "signed"    bytes: what the signature is of, the block of the commit without it
     "changes"   a list of lists of three, in the order of the operations: a record's key, as bytes, and links to the record
                 before and to the record after, or null
   docs/REPOSITORIES.md tells what is verified. It is verified against what is known of the repository: `root`, the CID of its
   tree, and `rev`, its revision; if root_length is 0 nothing is known, and `rev` is not looked at. Else it returns, below 0, a
   number of dagcbor_event_answer. With DAGCBOR_MISSING_NODE, DAGCBOR_NODE_OTHER_BYTES and DAGCBOR_NO_NODE it puts the CID of
   the node, and *needed becomes its length; if that has no room the call returns DAGCBOR_NO_ROOM. */
int32_t dagcbor_verify_event(const uint8_t *bytes, size_t length, const uint8_t *root, size_t root_length,
                             const uint8_t *rev, size_t rev_length, uint8_t *out, size_t room, size_t *needed);

#ifdef __cplusplus
}
#endif

#endif
