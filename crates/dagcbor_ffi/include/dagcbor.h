/* DAG-CBOR for C. The library checks if bytes are a block, tells what the block holds or why the bytes are not one, and spells
   a block. It tells the links of an item, a block's name, the header and the sections of a CAR file (version 1, or the one
   within version 2), and the text of CIDs.

   A block is the one spelling of a DAG-CBOR item that reading takes at most 256 steps of depth: one for a leaf, and two for
   each list or map around it. An item of more steps is refused here as too deep.

   The library takes no memory and keeps none: link with libdagcbor_ffi.a alone.

   What a caller owes, which nothing checks:
   - `bytes` is not NULL, even if `length` is 0 (dagcbor_from makes such a pointer); `length` bytes stand
     there, and nobody writes them during the call, no other thread either; `length` is below 2^63. The same holds for
     each other pointer to bytes that are read, and its length.
   - `out` likewise, even if `room` is 0 (dagcbor_into), for `room` bytes that nobody else reads or writes
     during the call; `tape` for `room` tokens, or for the `count` that are read (dagcbor_tape_into, dagcbor_compact_tape_into),
     aligned as their numbers, and fewer than 2^58 of them; `needed`, `place`, `end` and `following` for one number each,
     `places` for three, or two; `walk` for one walk.
   - What the call may write overlaps nothing else that it is given. What it only reads may overlap, such as a CID and a block
     within it.
   - The thread has 128 KB of stack left; the CPU is an x86-64-v2, or an aarch64.
   Calls on different threads need no lock: nothing is shared between them.

   If what is made has no room, dagcbor_spell, dagcbor_cid_text, dagcbor_cid_from_text, dagcbor_from_node and dagcbor_to_node
   return DAGCBOR_NO_ROOM. The other calls that fill `out` or `tape` return the same number with room and without: compare
   *needed with `room`. */
#ifndef DAGCBOR_H
#define DAGCBOR_H

#include <stddef.h>
#include <stdint.h>

#define DAGCBOR_VERSION "0.7.0"

#ifdef __cplusplus
extern "C" {
#endif

/* The kind of the item. */
enum dagcbor_kind {
    DAGCBOR_NULL = 0,
    DAGCBOR_BOOL = 1,
    DAGCBOR_INTEGER = 2,
    DAGCBOR_STRING = 3,
    DAGCBOR_BYTES = 4,
    DAGCBOR_LIST = 5,
    DAGCBOR_MAP = 6,
    DAGCBOR_LINK = 7,
    DAGCBOR_NEGATIVE = 8, /* of a token alone: an integer below 0; DAGCBOR_INTEGER is then one from 0 */
    DAGCBOR_ASCII = 9     /* of a compact token alone: a string of ASCII; DAGCBOR_STRING is then one with other bytes */
};

/* A part of a block, by its head. What `number` and `place` are, by `kind`:
   DAGCBOR_NULL                     0
   DAGCBOR_BOOL                     0 or 1
   DAGCBOR_INTEGER                  the integer
   DAGCBOR_NEGATIVE                 n, if the integer is -1 - n
   DAGCBOR_STRING, DAGCBOR_BYTES    how many bytes it has; they begin at `place`
   DAGCBOR_LINK                     how many bytes its CID has; they begin at `place`
   DAGCBOR_LIST                     how many items it has, whose tokens follow
   DAGCBOR_MAP                      how many entries it has; for each entry follow the key's token, a string, and the value's tokens
   `place` is counted from the block's front. For the other kinds it is the place after the head. */
typedef struct dagcbor_token {
    uint64_t kind;
    uint64_t number;
    uint64_t place;
} dagcbor_token;

/* The same in 12 bytes, for a block of fewer than 2^32 bytes. Two things differ:
   DAGCBOR_ASCII                        a string whose bytes are all below 0x80; DAGCBOR_STRING: one that has others
   DAGCBOR_INTEGER, DAGCBOR_NEGATIVE    `number` is the low, `place` the high half of the number of 64 bits */
typedef struct dagcbor_compact_token {
    uint32_t kind;
    uint32_t number;
    uint32_t place;
} dagcbor_compact_token;

/* Why there is no such item. The library never returns the other numbers down to -19: -2 a reader's fault, -6, -7, -9, -10,
   -11, -13 (of types), -18 out of memory, -19 a reader that had failed. */
enum dagcbor_refusal {
    DAGCBOR_MSG = -1,              /* a link holds no CID */
    DAGCBOR_EOF = -3,              /* the bytes end too early */
    DAGCBOR_MISMATCH = -4,         /* a key that is not a text, or another tag than that of a link */
    DAGCBOR_UNSUPPORTED = -5,      /* a float or another simple value, a link without a byte string, or a reserved width (information 28 to 30) */
    DAGCBOR_REQUIRE_UTF8 = -8,     /* a text that is not UTF-8 */
    DAGCBOR_DEPTH_OVERFLOW = -12,  /* too deep: a leaf takes one of 256 steps, and a list or a map two around what is in it */
    DAGCBOR_TRAILING_DATA = -14,   /* bytes after the item; not of dagcbor_links */
    DAGCBOR_INDEFINITE_SIZE = -15, /* an indefinite length, a break, or information 31 of any other first byte */
    DAGCBOR_NON_MINIMAL = -16,     /* a number or a length in more bytes than it needs */
    DAGCBOR_UNORDERED_KEY = -17,   /* a key that does not come after the one before it */
    DAGCBOR_NO_TOKEN = -20,        /* of dagcbor_spell: a kind or a number that is invalid, or a payload outside the bytes */
    DAGCBOR_NO_ROOM = -21          /* what is made has no room: of dagcbor_spell, of the calls for the text of CIDs and for the data
                                      model of nodes, and of those in dagcbor_memory.h; of dagcbor_compact_tape: 2^32 bytes or
                                      more, and then *needed is 0 */
};

/* Returns the kind, from 0, exactly if the bytes are a block. Else it returns the refusal, below 0: there is one, the one that
   `decode` tells (docs/GRAMMAR.md). */
int32_t dagcbor_check(const uint8_t *bytes, size_t length);

/* Returns what dagcbor_check does. *needed becomes the number of the block's tokens, in the order of the block: at most
   `length`. If that is at most `room` they are put at the front of `tape`, and else `tape` stays as it was. After a refusal
   *needed is 0 and `tape` as it was. With `room` as `length` one call is enough. */
int32_t dagcbor_tape(const uint8_t *bytes, size_t length, dagcbor_token *tape, size_t room, size_t *needed);

/* As dagcbor_tape, with compact tokens. If `length` is 2^32 or more it returns DAGCBOR_NO_ROOM; then *needed is 0, and `tape`
   as it was. */
int32_t dagcbor_compact_tape(const uint8_t *bytes, size_t length, dagcbor_compact_token *tape, size_t room, size_t *needed);

/* If the bytes are a block, as dagcbor_tape, and *place becomes `length`. Else it returns the refusal of dagcbor_check, and
   *place becomes the place of the refusal, from 0 to `length`: the bytes before it are a block or the front of one, and the
   refusal comes with the byte that stands there. DAGCBOR_EOF comes after all bytes, DAGCBOR_TRAILING_DATA after the item, and
   DAGCBOR_DEPTH_OVERFLOW at the last byte before an item for which no step is left. *needed becomes the number of tokens that
   stand whole before that place, each a head with its payload: at most *place. If that is at most `room` they are put at the
   front of `tape`, and else `tape` stays as it was. */
int32_t dagcbor_tokens(const uint8_t *bytes, size_t length, dagcbor_token *tape, size_t room, size_t *needed,
                       size_t *place);

/* The other way: spells what the `count` tokens tell, one after the other, each as its head and its payload out of `bytes`.
   *needed becomes the length of the spelling. If that is at most `room` the spelling is put at the front of `out`, and the call
   returns what dagcbor_check says of it: a kind exactly if it is a block (else the front of `out` holds no block). If it has no
   room the call returns DAGCBOR_NO_ROOM, and `out` stays as it was. If a token is invalid it returns DAGCBOR_NO_TOKEN; then
   *needed is 0 and `out` as it was. Places of tokens without a payload are not looked at. */
int32_t dagcbor_spell(const uint8_t *bytes, size_t length, const dagcbor_token *tape, size_t count, uint8_t *out,
                      size_t room, size_t *needed);

/* Returns the kind of the first item, from 0, exactly if one stands there; what follows it is not looked at. Else it returns,
   below 0, a refusal whose cause stands in the bytes. *needed becomes the length of the item's links, packed in the order of
   the block, with repeats: for each link a byte of its CID's length, and the CID. If that is at most `room` they are put at the
   front of `out`, and else `out` stays as it was. After a refusal *needed is 0 and `out` as it was. */
int32_t dagcbor_links(const uint8_t *bytes, size_t length, uint8_t *out, size_t room, size_t *needed);

/* What a path leads to in a block, beside the refusals above. */
enum dagcbor_path {
    DAGCBOR_NO_SUCH_PATH = -36,    /* the path leads to no item of the block */
    DAGCBOR_PATH_NOT_UTF8 = -37    /* the path is not a text; the bytes were not judged */
};

/* Returns the kind, from 0, of the item to which the path leads in the block, which is judged whole. The path is a text of
   segments between slashes. Empty segments say nothing, and nothing is escaped, so only dagcbor_part reaches a key that is
   empty or has a slash. From a map a segment leads to the value of that key. From a list it leads to an item: it is the item's
   index from 0 in decimal, without a sign and without zeros in front. From a link, which is an item, it leads nowhere. *place
   becomes where the item begins in the block, and *end where it ends: the bytes between are a block. If the call returns a
   number below 0 it is the refusal of dagcbor_check, or one of the above; then both stay. `path` may not be NULL either. */
int32_t dagcbor_find(const uint8_t *block, size_t length, const uint8_t *path, size_t path_length, size_t *place,
                     size_t *end);

/* As dagcbor_find for a path that is this one segment, which is taken whole: from a map it leads to the value of that key,
   which may be empty or have slashes. To follow a list of segments, make one call for each, in the bytes of the part before.
   -36 and -37 mean the same as for a path. `segment` may not be NULL either. */
int32_t dagcbor_part(const uint8_t *block, size_t length, const uint8_t *segment, size_t segment_length, size_t *place,
                     size_t *end);

/* Follows a path as far as it leads in the block. Returns, from 0, the kind of the last item to which a front of the path
   leads. places[0] and places[1] become where that item begins and where it ends, and places[2] how many bytes of the path lead
   there. That is `path_length` exactly if all of the path leads there, and then dagcbor_find returns the same. If some bytes
   are left and the kind is DAGCBOR_LINK, the rest of the path goes on in the block of that link; else it leads nowhere. A
   number below 0 is the refusal of dagcbor_check, or DAGCBOR_PATH_NOT_UTF8; then `places` stay. The path may not be NULL
   either. */
int32_t dagcbor_follow(const uint8_t *block, size_t length, const uint8_t *path, size_t path_length, size_t places[3]);

/* The block's name: the CID of version 1, with the codec DAG-CBOR and the SHA-256 of the bytes. Any bytes have one. */
void dagcbor_name(const uint8_t *bytes, size_t length, uint8_t out[36]);

/* The verdict on a block under a name, beside its kind and its refusals above; or why no section is there. */
enum dagcbor_section {
    DAGCBOR_NOT_READ = 9,          /* the block has this name, is of another codec than DAG-CBOR, and was not read */
    DAGCBOR_OTHER_BYTES = -22,     /* the digest of the block is not that of its CID */
    DAGCBOR_NOT_VERIFIED = -23,    /* the CID is by another hash function than SHA-256 and identity; the block was not read */
    DAGCBOR_TRUNCATED = -24,       /* the bytes end inside the length, or before as many as it says */
    DAGCBOR_INVALID_LENGTH = -25,  /* the length is not a varint in shortest form below 2^64 */
    DAGCBOR_INVALID_CID = -26,     /* no CID stands there, or after a section's length, or it goes on after the section; not of dagcbor_car_header */
    DAGCBOR_OTHER_HEADER = -27,    /* of dagcbor_car_header and dagcbor_car_next: a block that is not the map of roots and of version 1 */
    DAGCBOR_INVALID_OFFSET = -35   /* of dagcbor_car_span and dagcbor_car_next: of version 2, a begin below 51, or an end of 2^64 or more */
};

/* Judges a block under the name that the bytes `cid` are. A number from 0 says that nothing is wrong: it is that of the block's
   kind, or DAGCBOR_NOT_READ. A number below 0 is that of the refusal of the block, whose name it is; or it is
   DAGCBOR_OTHER_BYTES, DAGCBOR_NOT_VERIFIED, or DAGCBOR_INVALID_CID, if `cid` is not a CID. If both are one section,
   dagcbor_car_section returns the same. `cid` may not be NULL either. */
int32_t dagcbor_verify(const uint8_t *cid, size_t cid_length, const uint8_t *block, size_t length);

/* Finds the file of version 1 within a CAR file, of which these bytes are the front: 51 of them are enough. Returns 0, and
   places[0] becomes where that file begins and places[1] where it ends, both counted from the first byte. In version 2 they are
   what its header says, which may lie after `length`. In version 1 they are 0 and UINT64_MAX, which means up to the end of the
   file. Else it returns a number below 0, and then `places` stay. DAGCBOR_TRUNCATED: the bytes are fewer than the 11 that begin
   version 2, and begin them; or they begin with these 11 and are fewer than 51. DAGCBOR_INVALID_OFFSET is the other. What
   follows the file of version 1 is not part of it: hand no byte after places[1] to the calls below. */
int32_t dagcbor_car_span(const uint8_t *bytes, size_t length, uint64_t places[2]);

/* Reads the header at the front of the bytes of a CAR file, of version 1. Returns 0 exactly if one is there: *following becomes
   where the first section begins, and *needed the length of its roots, packed as dagcbor_links packs links. If that is at most
   `room` they are put at the front of `out`, and else `out` stays as it was. Else it returns, below 0, DAGCBOR_TRUNCATED,
   DAGCBOR_INVALID_LENGTH, DAGCBOR_OTHER_HEADER, or, if the bytes after the length are not a block, their refusal. Then *needed
   is 0, and `out` and *following are as they were. */
int32_t dagcbor_car_header(const uint8_t *bytes, size_t length, uint8_t *out, size_t room, size_t *needed, size_t *following);

/* Judges the section at the front of the bytes, as one after the header of a CAR file. A number from 0 says that nothing is
   wrong with its block: it is that of the block's kind, or DAGCBOR_NOT_READ. A number below 0 is that of the refusal of the
   block, whose name is the section's, or one of those above. If a section is there, `places` become where its CID begins, where
   its block begins, which is where the CID ends, and where the section ends with its block: the next one begins there. Else
   they stay. The call goes through the block once for its digest, and once to judge it: what comes after is not looked at. */
int32_t dagcbor_car_section(const uint8_t *bytes, size_t length, size_t places[3]);

/* Where a walk through a CAR file is. All zeros at its beginning. */
typedef struct dagcbor_car_walk {
    uint64_t place;   /* the offset in the file of the next byte that the walk needs */
    uint64_t end;     /* after the header: the offset at which the sections end; of version 1 UINT64_MAX */
    uint32_t version; /* 0 until it is known; then 1 or 2 */
    uint32_t step;    /* 0: the header comes next; 1: sections do */
} dagcbor_car_walk;

/* What the caller says of the bytes at hand. `how` is a sum of these, and its other bits are not looked at. */
enum dagcbor_car_how {
    DAGCBOR_CAR_LAST = 1,    /* no bytes of the file follow them */
    DAGCBOR_CAR_UNJUDGED = 2 /* only find a section: its block is not hashed and not judged */
};

/* What comes next in a CAR file, beside the number of a verdict, and of a fault. */
enum dagcbor_car_answer {
    DAGCBOR_CAR_MORE = 10,   /* more bytes are needed */
    DAGCBOR_CAR_HEADER = 11, /* the header */
    DAGCBOR_CAR_END = 12,    /* nothing: the sections have ended */
    DAGCBOR_CAR_SECTION = 13 /* a section; answered with DAGCBOR_CAR_UNJUDGED alone, in place of a verdict */
};

/* Finds what comes next in a CAR file, of version 1 or 2. `bytes` are those of the file from the offset walk->place on, as it
   is when the call begins: as many as are at hand. The caller calls again and again, each time with the bytes from the new
   walk->place on. However the caller cuts the file, the answers are the same, and so are their places in the file. The call
   returns
   - DAGCBOR_CAR_MORE if these bytes do not tell it: more are needed. Never with DAGCBOR_CAR_LAST. walk->place may have moved, to
     where the part of version 1 begins in a file of version 2, perhaps past the bytes at hand: those before it are not needed.
   - DAGCBOR_CAR_HEADER first. `places` become where the header begins (0, or in a file of version 2 where the part of version 1
     does), where its block begins, after the length, and where it ends. The links of that block are the roots.
   - then for each section what dagcbor_car_section says of it: from 0 a kind or DAGCBOR_NOT_READ, below 0 a refusal of its block,
     DAGCBOR_OTHER_BYTES or DAGCBOR_NOT_VERIFIED; with DAGCBOR_CAR_UNJUDGED for each DAGCBOR_CAR_SECTION. `places` are also the same.
   - then DAGCBOR_CAR_END: in version 1 if no bytes are at hand and none follow; in version 2 at walk->end, after which no byte is
     looked at.
   - or the fault: DAGCBOR_TRUNCATED, DAGCBOR_INVALID_LENGTH, DAGCBOR_INVALID_CID; and before the header DAGCBOR_INVALID_OFFSET,
     DAGCBOR_OTHER_HEADER, and the refusals of the header's block.
   After a header and a section walk->place moves to its end. `places` are counted from `bytes`, and stay after every other
   answer. walk->place is the offset of a fault. If the fault is in the header of a file of version 2 it moves to where the part
   of version 1 begins. At the end and after a fault the call returns the same again. While walk->version is 0 the file begins
   at walk->place, which need not be 0; no value of the walk is refused. */
int32_t dagcbor_car_next(dagcbor_car_walk *walk, const uint8_t *bytes, size_t length, uint32_t how, size_t places[3]);

/* The greatest length of a CID in its binary form, and of the text that is written. */
enum { DAGCBOR_CID_MOST = 86, DAGCBOR_CID_TEXT_MOST = 139 };

/* Why a text is not that of a CID, beside DAGCBOR_INVALID_CID, which says that its bytes are not a CID. */
enum dagcbor_text_fault {
    DAGCBOR_UNKNOWN_BASE = -28,        /* the text does not begin with b, B, f, z or Q, or is empty */
    DAGCBOR_TOO_LONG = -29,            /* more than 172 characters stand after the prefix: no CID has so many */
    DAGCBOR_INVALID_CHARACTER = -30,   /* a character is not of the base */
    DAGCBOR_INVALID_TEXT_LENGTH = -31, /* the last character begins a byte and does not end it */
    DAGCBOR_TRAILING_BITS = -32,       /* bits that are not zero stand after the last byte */
    DAGCBOR_LEADING_ZERO = -33,        /* a 1 comes first in base58btc, which is a zero byte: no CID begins with one */
    DAGCBOR_INVALID_VERSION = -34      /* version 0 after a prefix, or version 1 after none */
};

/* Writes the text of the CID that the bytes are: base32 after b, or base58btc (Qm..) for version 0. It is ASCII, and no zero
   stands after it. Returns 0 exactly if the bytes are a CID, else DAGCBOR_INVALID_CID. *needed becomes the length of the text,
   at most DAGCBOR_CID_TEXT_MOST. If that is at most `room` the text is put at the front of `out`, and else the call returns
   DAGCBOR_NO_ROOM and `out` stays as it was. After another refusal *needed is 0 and `out` as it was. */
int32_t dagcbor_cid_text(const uint8_t *bytes, size_t length, uint8_t *out, size_t room, size_t *needed);

/* Writes the binary form of the CID whose text this is: for version 0 base58btc (Qm..), for version 1 base32 after b or B,
   base58btc after z, or base16 with small letters after f. Returns 0 exactly if it is such a text; else, below 0, the one fault
   that stands in it: that it is too long, or the first from the left. *needed becomes the length of the binary form, at most
   DAGCBOR_CID_MOST. If that is at most `room` it is put at the front of `out`, and else the call returns DAGCBOR_NO_ROOM and
   `out` stays as it was. After another refusal *needed is 0 and `out` as it was. */
int32_t dagcbor_cid_from_text(const uint8_t *text, size_t length, uint8_t *out, size_t room, size_t *needed);

/* Why bytes are not a block of DAG-PB, or have no data model; and why data is not written as one. */
enum dagcbor_node_fault {
    DAGCBOR_NODE_TRUNCATED = -53,   /* the bytes end inside a number, or before as many as it says */
    DAGCBOR_INVALID_VARINT = -54,   /* a number has more than ten bytes, or is 2^64 or more */
    DAGCBOR_UNEXPECTED_FIELD = -55, /* a field cannot be there: its tag is unknown, or it is there twice or out of order */
    DAGCBOR_NO_HASH = -56,          /* a link is empty */
    DAGCBOR_NODE_INVALID_CID = -57, /* a link has other bytes than a CID */
    DAGCBOR_NAME_NOT_TEXT = -58,    /* the name of a link is not UTF-8 */
    DAGCBOR_NOT_A_NODE = -59,       /* of dagcbor_to_node: the data is not that of a node */
    DAGCBOR_UNSORTED_LINKS = -60    /* of dagcbor_to_node: the links are not sorted by the bytes of their names */
};

/* Writes the links of a block of DAG-PB, whatever their names are. Returns 0 exactly if the bytes are such a block. *needed
   becomes the length of its links, packed as dagcbor_links packs them. If that is at most `room` they are put at the front of
   `out`, and else `out` stays as it was. Else it returns a number from DAGCBOR_NODE_TRUNCATED to DAGCBOR_NODE_INVALID_CID; then
   *needed is 0 and `out` as it was. *place becomes the offset of the fault, and else 0. */
int32_t dagcbor_node_links(const uint8_t *node, size_t length, uint8_t *out, size_t room, size_t *needed, size_t *place);

/* Writes the data model of a block of DAG-PB as a block of DAG-CBOR: a map of Links and, if the node has some, Data. Each link
   is a map of Hash, and of Name and Tsize if it has them. Returns 0 exactly if the bytes are such a block, and its names are
   UTF-8. *needed becomes the length of the block of DAG-CBOR. If that is at most `room` it is put at the front of `out`, and
   else the call returns DAGCBOR_NO_ROOM and `out` stays as it was. After another refusal *needed is 0 and `out` as it was.
   *place becomes the offset of the fault, from DAGCBOR_NODE_TRUNCATED to DAGCBOR_NODE_INVALID_CID, and else 0. */
int32_t dagcbor_from_node(const uint8_t *node, size_t length, uint8_t *out, size_t room, size_t *needed, size_t *place);

/* The other way: writes the block of DAG-PB, in its one canonical form, whose data model the block of DAG-CBOR has. Returns 0
   exactly if there is one and its links are sorted. Else it returns the refusal of dagcbor_check, DAGCBOR_NOT_A_NODE or
   DAGCBOR_UNSORTED_LINKS. *needed and `out` as for dagcbor_from_node. */
int32_t dagcbor_to_node(const uint8_t *block, size_t length, uint8_t *out, size_t room, size_t *needed);

/* Of calls that take memory, in dagcbor_memory.h. */
enum { DAGCBOR_NO_MEMORY = -42 };

/* Why a text is not data in DAG-JSON, for dagcbor_from_json there. */
enum dagcbor_json_fault {
    DAGCBOR_JSON_NO_TEXT = -43,       /* the bytes are not UTF-8 */
    DAGCBOR_JSON_NO_JSON = -44,       /* it is not JSON, or half of a surrogate pair is written in it */
    DAGCBOR_JSON_TRAILING_DATA = -45, /* more stands after the value */
    DAGCBOR_JSON_TOO_DEEP = -46,      /* more than 127 lists and maps around a part, or 128 around an empty one */
    DAGCBOR_JSON_FLOAT = -47,         /* a number with a fraction or an exponent */
    DAGCBOR_JSON_OUT_OF_RANGE = -48,  /* an integer below -2^64, or above 2^64 - 1 */
    DAGCBOR_JSON_REPEATED_KEY = -49,  /* a map has a key twice */
    DAGCBOR_JSON_RESERVED_KEY = -50,  /* a map has the key / and is neither a link nor bytes; of dagcbor_to_json too */
    DAGCBOR_JSON_NO_CID = -51,        /* the text of a link is not that of a CID */
    DAGCBOR_JSON_NO_BASE64 = -52      /* the text of bytes is not base64 without padding */
};

/* Why there is no frame, or its commit is not verified: for dagcbor_event_frame and dagcbor_verify_event there. */
enum dagcbor_event_answer {
    DAGCBOR_VERIFIED = 0, /* `out` has a block */
    DAGCBOR_FRAME_NO_END = -61,          /* the bytes are not two items by their heads */
    DAGCBOR_FRAME_NO_HEADER = -62,       /* the first item is not a header */
    DAGCBOR_FRAME_OTHER_OPERATION = -63, /* the header's op is neither 1 nor -1 */
    DAGCBOR_FRAME_NO_KIND = -64,         /* the header's op is 1, and the header tells no kind */
    DAGCBOR_FRAME_NO_BODY = -65,         /* the second item is not a body of the kind */
    DAGCBOR_NO_COMMIT_FRAME = -66,       /* the frame is of another kind than a commit */
    DAGCBOR_NO_KNOWN = -67,              /* `root` is not empty, and it is not a CID or `rev` is not UTF-8; the frame was not read */
    DAGCBOR_TOO_BIG = -68,               /* the event does not tell all */
    DAGCBOR_REBASE = -69,                /* it tells of a rebase */
    DAGCBOR_MANY_OPERATIONS = -70,       /* more than 200 operations */
    DAGCBOR_MANY_BYTES = -71,            /* more than 2,000,000 bytes of blocks */
    DAGCBOR_NOT_AFTER = -72,             /* its revision does not come after the one that is known */
    DAGCBOR_OTHER_ROOT = -73,            /* prevData is not the root that is known */
    DAGCBOR_NO_ROOT = -74,               /* it has no prevData, and no root is known */
    DAGCBOR_OTHER_FORM = -75,            /* an operation does not have the records of its action */
    DAGCBOR_NO_CAR = -76,                /* its blocks are not a file of version 1 */
    DAGCBOR_OTHER_COMMIT = -77,          /* the first root of its blocks is not the commit */
    DAGCBOR_NO_COMMIT = -78,             /* the commit is not among its blocks, or is not a commit */
    DAGCBOR_OTHER_REPOSITORY = -79,      /* the commit is of another repository */
    DAGCBOR_OTHER_REVISION = -80,        /* the commit is of another revision */
    DAGCBOR_LEADS_ELSEWHERE = -81,       /* the operations lead from another root than the one before */
    DAGCBOR_MISSING_NODE = -82,          /* a node of the tree is not among the blocks */
    DAGCBOR_NODE_OTHER_BYTES = -83,      /* the blocks have other bytes under the CID of a node */
    DAGCBOR_NO_NODE = -84,               /* the block of that CID is not a node */
    DAGCBOR_OTHER_TREE = -85,            /* the nodes are not those of a tree */
    DAGCBOR_KEY_LENGTH = -86,            /* an operation has a path of no byte, or of more than 1,024 */
    DAGCBOR_OTHER_STATE = -87            /* the tree does not have what an operation leads to */
};

/* Pointers that each call takes, even if there are no bytes, or there is no room, and the pointer is NULL. So
   dagcbor_links(bytes, length, dagcbor_into(NULL, 0), 0, &needed) asks how long the links are. */
static inline const uint8_t *dagcbor_from(const uint8_t *bytes, size_t length) {
    static const uint8_t none[1] = {0};
    return length ? bytes : none;
}

static inline uint8_t *dagcbor_into(uint8_t *out, size_t room) {
    static uint8_t none[1];
    return room ? out : none;
}

static inline dagcbor_token *dagcbor_tape_into(dagcbor_token *tape, size_t room) {
    static dagcbor_token none[1];
    return room ? tape : none;
}

static inline dagcbor_compact_token *dagcbor_compact_tape_into(dagcbor_compact_token *tape, size_t room) {
    static dagcbor_compact_token none[1];
    return room ? tape : none;
}

/* The name of a number that a call returns, such as "map" and "NonMinimal": from 0 that of a kind of item, or of
   DAGCBOR_NOT_READ, and below 0 that of a cause. Numbers from 0 that mean something else, such as DAGCBOR_VERIFIED and
   DAGCBOR_FRAME_COMMIT, have no names here. */
static inline const char *dagcbor_name_of_code(int32_t code) {
    switch (code) {
    case DAGCBOR_NULL: return "null";
    case DAGCBOR_BOOL: return "bool";
    case DAGCBOR_INTEGER:
    case DAGCBOR_NEGATIVE: return "integer";
    case DAGCBOR_STRING: return "string";
    case DAGCBOR_BYTES: return "bytes";
    case DAGCBOR_LIST: return "list";
    case DAGCBOR_MAP: return "map";
    case DAGCBOR_LINK: return "link";
    case DAGCBOR_NOT_READ: return "NotRead";
    case DAGCBOR_MSG: return "Msg";
    case DAGCBOR_EOF: return "Eof";
    case DAGCBOR_MISMATCH: return "Mismatch";
    case DAGCBOR_UNSUPPORTED: return "Unsupported";
    case DAGCBOR_REQUIRE_UTF8: return "RequireUtf8";
    case DAGCBOR_DEPTH_OVERFLOW: return "DepthOverflow";
    case DAGCBOR_TRAILING_DATA:
    case DAGCBOR_JSON_TRAILING_DATA: return "TrailingData";
    case DAGCBOR_INDEFINITE_SIZE: return "IndefiniteSize";
    case DAGCBOR_NON_MINIMAL: return "NonMinimal";
    case DAGCBOR_UNORDERED_KEY: return "UnorderedKey";
    case DAGCBOR_NO_TOKEN: return "NoToken";
    case DAGCBOR_NO_ROOM: return "NoRoom";
    case DAGCBOR_OTHER_BYTES: return "OtherBytes";
    case DAGCBOR_NOT_VERIFIED: return "NotVerified";
    case DAGCBOR_TRUNCATED: return "Truncated";
    case DAGCBOR_INVALID_LENGTH:
    case DAGCBOR_INVALID_TEXT_LENGTH: return "InvalidLength";
    case DAGCBOR_INVALID_CID: return "InvalidCid";
    case DAGCBOR_OTHER_HEADER: return "OtherHeader";
    case DAGCBOR_UNKNOWN_BASE: return "UnknownBase";
    case DAGCBOR_TOO_LONG: return "TooLong";
    case DAGCBOR_INVALID_CHARACTER: return "InvalidCharacter";
    case DAGCBOR_TRAILING_BITS: return "TrailingBits";
    case DAGCBOR_LEADING_ZERO: return "LeadingZero";
    case DAGCBOR_INVALID_VERSION: return "InvalidVersion";
    case DAGCBOR_INVALID_OFFSET: return "InvalidOffset";
    case DAGCBOR_NO_SUCH_PATH: return "NoSuchPath";
    case DAGCBOR_PATH_NOT_UTF8: return "PathNotUtf8";
    case DAGCBOR_NODE_TRUNCATED: return "Truncated";
    case DAGCBOR_INVALID_VARINT: return "InvalidVarint";
    case DAGCBOR_UNEXPECTED_FIELD: return "UnexpectedField";
    case DAGCBOR_NO_HASH: return "NoHash";
    case DAGCBOR_NODE_INVALID_CID: return "InvalidCid";
    case DAGCBOR_NAME_NOT_TEXT: return "NameNotText";
    case DAGCBOR_NOT_A_NODE: return "NotANode";
    case DAGCBOR_UNSORTED_LINKS: return "UnsortedLinks";
    case DAGCBOR_NO_MEMORY: return "NoMemory";
    case DAGCBOR_JSON_NO_TEXT: return "NoText";
    case DAGCBOR_JSON_NO_JSON: return "NoJson";
    case DAGCBOR_JSON_TOO_DEEP: return "TooDeep";
    case DAGCBOR_JSON_FLOAT: return "Float";
    case DAGCBOR_JSON_OUT_OF_RANGE: return "OutOfRange";
    case DAGCBOR_JSON_REPEATED_KEY: return "RepeatedKey";
    case DAGCBOR_JSON_RESERVED_KEY: return "ReservedKey";
    case DAGCBOR_JSON_NO_CID: return "NoCid";
    case DAGCBOR_JSON_NO_BASE64: return "NoBase64";
    case DAGCBOR_FRAME_NO_END: return "NoEnd";
    case DAGCBOR_FRAME_NO_HEADER: return "NoHeader";
    case DAGCBOR_FRAME_OTHER_OPERATION: return "OtherOperation";
    case DAGCBOR_FRAME_NO_KIND: return "NoKind";
    case DAGCBOR_FRAME_NO_BODY: return "NoBody";
    case DAGCBOR_NO_COMMIT_FRAME: return "NoCommitFrame";
    case DAGCBOR_NO_KNOWN: return "NoKnown";
    case DAGCBOR_TOO_BIG: return "TooBig";
    case DAGCBOR_REBASE: return "Rebase";
    case DAGCBOR_MANY_OPERATIONS: return "ManyOperations";
    case DAGCBOR_MANY_BYTES: return "ManyBytes";
    case DAGCBOR_NOT_AFTER: return "NotAfter";
    case DAGCBOR_OTHER_ROOT: return "OtherRoot";
    case DAGCBOR_NO_ROOT: return "NoRoot";
    case DAGCBOR_OTHER_FORM: return "OtherForm";
    case DAGCBOR_NO_CAR: return "NoCar";
    case DAGCBOR_OTHER_COMMIT: return "OtherCommit";
    case DAGCBOR_NO_COMMIT: return "NoCommit";
    case DAGCBOR_OTHER_REPOSITORY: return "OtherRepository";
    case DAGCBOR_OTHER_REVISION: return "OtherRevision";
    case DAGCBOR_LEADS_ELSEWHERE: return "LeadsElsewhere";
    case DAGCBOR_MISSING_NODE: return "MissingNode";
    case DAGCBOR_NODE_OTHER_BYTES: return "OtherBytes";
    case DAGCBOR_NO_NODE: return "NoNode";
    case DAGCBOR_OTHER_TREE: return "OtherTree";
    case DAGCBOR_KEY_LENGTH: return "KeyLength";
    case DAGCBOR_OTHER_STATE: return "OtherState";
    default: return "none";
    }
}

#ifdef __cplusplus
}
#endif

#endif
