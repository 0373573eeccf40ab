/* Why the library refuses, in words for a person. Not proved, and no part of the library, whose
   dagcbor_name_of_code names the same numbers. */
#ifndef DAGCBOR_REASONS_H
#define DAGCBOR_REASONS_H

#include "dagcbor.h"

static inline const char *reason_of_code(int32_t code) {
    switch (code) {
    case DAGCBOR_NOT_READ: return "the block is of another codec than DAG-CBOR";
    case DAGCBOR_MSG: return "a link holds no CID";
    case DAGCBOR_EOF: return "the bytes end too early";
    case DAGCBOR_MISMATCH: return "a key that is not a text, or another tag than that of a link";
    case DAGCBOR_UNSUPPORTED:
        return "a float or another simple value, a link without a byte string, or a reserved width";
    case DAGCBOR_REQUIRE_UTF8: return "a text that is not UTF-8";
    case DAGCBOR_DEPTH_OVERFLOW: return "lists and maps are nested too deep";
    case DAGCBOR_TRAILING_DATA: return "bytes after the item";
    case DAGCBOR_INDEFINITE_SIZE: return "an indefinite length or a break";
    case DAGCBOR_NON_MINIMAL: return "a number or a length in more bytes than it needs";
    case DAGCBOR_UNORDERED_KEY: return "a key that does not come after the one before it";
    case DAGCBOR_OTHER_BYTES: return "the bytes are not those that the CID names";
    case DAGCBOR_NOT_VERIFIED:
        return "the CID is by another hash function than SHA-256 and the identity";
    case DAGCBOR_TRUNCATED: return "the file is cut short";
    case DAGCBOR_INVALID_LENGTH: return "a length is not in shortest form or too large";
    case DAGCBOR_INVALID_CID: return "the bytes are no CID";
    case DAGCBOR_OTHER_HEADER: return "the header is not that of version 1";
    case DAGCBOR_UNKNOWN_BASE:
        return "the first character of the text names no base that is read here";
    case DAGCBOR_TOO_LONG: return "the text is longer than that of any CID";
    case DAGCBOR_INVALID_CHARACTER: return "a character is not in the alphabet of the base";
    case DAGCBOR_INVALID_TEXT_LENGTH:
        return "the last character of the text begins a byte and does not end it";
    case DAGCBOR_TRAILING_BITS: return "bits that are not zero stand after the last byte";
    case DAGCBOR_LEADING_ZERO: return "the text begins with a zero byte, as no CID does";
    case DAGCBOR_INVALID_VERSION: return "version 0 has no prefix, and version 1 has one";
    case DAGCBOR_INVALID_OFFSET: return "the offsets of version 2 are invalid";
    case DAGCBOR_NODE_TRUNCATED: return "a field of the node is cut short";
    case DAGCBOR_INVALID_VARINT: return "a number of the node is too large";
    case DAGCBOR_UNEXPECTED_FIELD: return "a field of the node cannot be there";
    case DAGCBOR_NO_HASH: return "a link of the node has no CID";
    case DAGCBOR_NODE_INVALID_CID: return "a link of the node has other bytes than a CID";
    case DAGCBOR_NAME_NOT_TEXT: return "the name of a link is not UTF-8";
    case DAGCBOR_NOT_A_NODE: return "the data is not that of a DAG-PB node";
    case DAGCBOR_UNSORTED_LINKS: return "the links are not sorted by their names";
    case DAGCBOR_JSON_NO_TEXT: return "the text is not UTF-8";
    case DAGCBOR_JSON_NO_JSON: return "the text is not JSON";
    case DAGCBOR_JSON_TRAILING_DATA: return "more stands after the value";
    case DAGCBOR_JSON_TOO_DEEP: return "lists and maps are nested too deep";
    case DAGCBOR_JSON_FLOAT: return "a number has a fraction or an exponent";
    case DAGCBOR_JSON_OUT_OF_RANGE: return "an integer is not from -2^64 to 2^64 - 1";
    case DAGCBOR_JSON_REPEATED_KEY: return "a map has a key twice";
    case DAGCBOR_JSON_RESERVED_KEY: return "a map with the key / is neither a link nor bytes";
    case DAGCBOR_JSON_NO_CID: return "the text of a link is that of no CID";
    case DAGCBOR_JSON_NO_BASE64: return "the text of bytes is not base64 without padding";
    case DAGCBOR_FRAME_NO_END: return "the bytes are not two items";
    case DAGCBOR_FRAME_NO_HEADER: return "the first item is no header of a frame";
    case DAGCBOR_FRAME_OTHER_OPERATION: return "the operation of the header is neither 1 nor -1";
    case DAGCBOR_FRAME_NO_KIND: return "the header tells no kind";
    case DAGCBOR_FRAME_NO_BODY:
        return "the second item is no body of the kind that the header tells";
    case DAGCBOR_NO_COMMIT_FRAME: return "the frame is of another kind than a commit";
    case DAGCBOR_NO_KNOWN: return "the root that is known is no CID, or the revision no text";
    case DAGCBOR_TOO_BIG: return "the event does not tell all: tooBig";
    case DAGCBOR_REBASE: return "the event tells of a rebase";
    case DAGCBOR_MANY_OPERATIONS: return "the event has more than 200 operations";
    case DAGCBOR_MANY_BYTES: return "the event has more than 2,000,000 bytes of blocks";
    case DAGCBOR_NOT_AFTER: return "the revision does not come after the one that is known";
    case DAGCBOR_OTHER_ROOT: return "prevData is another root than the one that is known";
    case DAGCBOR_NO_ROOT: return "the event has no prevData, and no root is known";
    case DAGCBOR_OTHER_FORM: return "an operation lacks a record of its action, or has one more";
    case DAGCBOR_NO_CAR: return "the blocks are no CAR file of version 1";
    case DAGCBOR_OTHER_COMMIT: return "the first root of the blocks is not the commit";
    case DAGCBOR_NO_COMMIT: return "the commit is not read";
    case DAGCBOR_OTHER_REPOSITORY: return "the commit is of another repository";
    case DAGCBOR_OTHER_REVISION: return "the commit is of another revision";
    case DAGCBOR_LEADS_ELSEWHERE: return "the operations lead from another root";
    case DAGCBOR_MISSING_NODE: return "a node of the tree is missing";
    case DAGCBOR_NODE_OTHER_BYTES: return "under the name of a node other bytes are stored";
    case DAGCBOR_NO_NODE: return "a block is no node";
    case DAGCBOR_OTHER_TREE: return "the nodes are not those of a tree";
    case DAGCBOR_KEY_LENGTH: return "a key has no byte, or more than 1024";
    case DAGCBOR_OTHER_STATE: return "the tree has not what an operation leads to";
    default: return "no reason is known";
    }
}

#endif
