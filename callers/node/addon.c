/* The library for Node, by Node-API. No value of a block and no error of one is made here: a call
   returns numbers, bytes or texts, and if the library refuses, its number, which is below 0.

   No script runs while the library reads the bytes of a Uint8Array. Memory that another thread may
   write is refused. */
#include "addon.h"

/* How much is kept: tokens of what is read; of what is written, and bytes of their payloads. */
enum { KEPT_TOKENS = 1 << 20, WRITTEN_TOKENS = 1 << 12, WRITTEN_BYTES = 1 << 15 };

enum { WINDOW = 2048 };          /* bytes of texts that are made as one, or units of one */
enum { LATIN1 = 10, WIDE = 11 }; /* the kinds of its parts: of bytes for units, and of others */
enum { SHARED = 1024 };          /* bytes of a block that may share memory */
static const uint64_t ABSENT = UINT32_MAX; /* the place of a payload that is not there yet */

/* The one argument, and what the call is told; NULL, with an exception thrown, if there is none. */
static napi_value argument(napi_env env, napi_callback_info info, void **about) {
    size_t count = 1;
    napi_value given;
    TRY(napi_get_cb_info(env, info, &count, &given, NULL, about));
    return given;
}

static const uint8_t *bytes_of(napi_env env, napi_callback_info info, size_t *length,
                               void **about) {
    napi_value given = argument(env, info, about);
    const uint8_t *bytes = given ? bytes_in(env, given, length) : NULL;
    return bytes || !given ? bytes : no_bytes(env);
}

/* A text of which each unit is a byte. */
static napi_value latin1(napi_env env, const void *bytes, size_t length) {
    napi_value text;
    TRY(napi_create_string_latin1(env, bytes, length, &text));
    return text;
}

/* The tokens for decode.js */

/* What an environment has of its own: the arrays that are kept; and what was read last, whose
 * tokens and block are looked at until its values are made, and no script runs before. */
typedef struct {
    void *kept, *words, *payload;
    dagcbor_compact_token *tokens;
    size_t count;
    const uint8_t *block;
} Own;

static Own *own_of(napi_env env) {
    void *own = NULL;
    napi_get_instance_data(env, &own);
    return own;
}

/* read(block): its compact tape. Returns how many tokens there are, if they are in the array that
 * is kept, and else an array of their own. */
static napi_value read_tape(napi_env env, napi_callback_info info) {
    size_t length;
    void *tokens;
    Own *own = own_of(env);
    size_t *count = &own->count;
    *count = 0;
    if (!(own->block = bytes_of(env, info, &length, NULL))) return NULL;
    own->tokens = own->kept;
    int32_t code = dagcbor_compact_tape(own->block, length, own->kept, KEPT_TOKENS, count);
    if (code < 0 || *count <= KEPT_TOKENS) return number_of(env, code < 0 ? code : (int64_t)*count);
    napi_value array = new_array(env, napi_uint32_array, 3 * *count, sizeof(uint32_t), &tokens);
    if (!array) return NULL;
    own->tokens = tokens;
    dagcbor_compact_tape(own->block, length, tokens, *count, count);
    return array;
}

/* Makes the tokens of texts from there on parts of one text, whose units it puts. Returns how many
 * there are. It takes only those whose units are bytes, or only those that have others, and looks
 * at no more bytes than this limit. */
static size_t gather(const Own *own, size_t first, bool are_latin1, size_t most, uint16_t *units) {
    size_t count = 0;
    for (size_t i = first, looked = 0; i < own->count; i++) {
        dagcbor_compact_token *token = &own->tokens[i];
        if (token->kind != DAGCBOR_STRING) continue;
        if ((looked += token->number) > most) break;
        const uint8_t *text = own->block + token->place;
        if (is_latin1(text, token->number) != are_latin1) continue;
        size_t length = are_latin1 ? put_latin1(text, token->number, (uint8_t *)units + count)
                                   : put_units(text, token->number, units + count);
        *token = (dagcbor_compact_token){are_latin1 ? LATIN1 : WIDE, length, count};
        count += length;
    }
    return count;
}

/* texts(i): a text that has that of the token, which is beyond ASCII, and some of those after it;
 * their tokens now say which part each is. */
static napi_value make_texts(napi_env env, napi_callback_info info) {
    uint16_t room[WINDOW], *units = room;
    uint32_t first;
    const Own *own = own_of(env);
    napi_value given = argument(env, info, NULL), text = NULL;
    if (!given) return NULL;
    TRY(napi_get_value_uint32(env, given, &first));
    if (first >= own->count) return raise(env, "no such token");
    const dagcbor_compact_token *token = &own->tokens[first];
    size_t most = token->number < WINDOW ? WINDOW : token->number;
    bool are_latin1 = is_latin1(own->block + token->place, token->number);
    if (most > WINDOW && !(units = malloc(most * sizeof *units))) return no_memory(env);
    size_t count = gather(own, first, are_latin1, most, units);
    if (are_latin1) text = latin1(env, units, count);
    else if (napi_create_string_utf16(env, units, count, &text) != napi_ok)
        raise(env, "no text was made");
    if (units != room) free(units);
    return text;
}

/* The tokens of encode.js */

/* A tape of encode.js: its tokens. The payloads of those before the first are there. */
typedef struct {
    dagcbor_token *tokens;
    uint8_t *payload;
    size_t room; /* for payloads */
    uint32_t first, count, used;
} Spelling;

/* Puts the payloads that are not there, whose units stand one after the other, with room for them.
 * False if one has no UTF-8: its token stays. */
static bool put_payloads(Spelling *it, const uint16_t *units) {
    uint8_t *out = it->payload + it->used;
    for (size_t i = it->first; i < it->count; i++) {
        dagcbor_token *token = &it->tokens[i];
        if (token->place != ABSENT) continue;
        size_t place = (size_t)(out - it->payload), length = token->number;
        if (token->kind == DAGCBOR_LINK)
            for (size_t n = 0; n < length; n++) *out++ = (uint8_t)units[n];
        else if (!(out = put_utf8(units, length, out))) return false;
        units += length;
        *token = (dagcbor_token){token->kind, (size_t)(out - it->payload) - place, place};
    }
    it->used = (uint32_t)(out - it->payload);
    return true;
}

/* Puts the payloads that are not there, out of the texts. The number of their refusal, or 0. */
static int32_t settle(napi_env env, Spelling *it, napi_value texts) {
    uint16_t front[WINDOW], *units = front;
    size_t length;
    if (napi_get_value_string_utf16(env, texts, front, WINDOW, &length) != napi_ok) return 0;
    if (length == WINDOW - 1) {
        napi_get_value_string_utf16(env, texts, NULL, 0, &length);
        if (!(units = malloc((length + 1) * sizeof *units))) return DAGCBOR_NO_MEMORY;
        napi_get_value_string_utf16(env, texts, units, length + 1, &length);
    }
    bool has_room = 3 * length < it->room - it->used, is_put = has_room && put_payloads(it, units);
    if (units != front) free(units);
    return is_put ? 0 : has_room ? DAGCBOR_REQUIRE_UTF8 : DAGCBOR_NO_ROOM;
}

/* Spells the tape into this much room, or else into memory of its own. */
static napi_value spelt(napi_env env, const Spelling *it, uint8_t *out, size_t room) {
    size_t needed;
    int32_t code = dagcbor_spell(it->payload, it->used, it->tokens, it->count,
                                 dagcbor_into(out, room), room, &needed);
    if (code != DAGCBOR_NO_ROOM) return number_of(env, code < 0 ? code : (int64_t)needed);
    napi_value block = new_bytes(env, needed, &out);
    if (!block) return NULL;
    code = dagcbor_spell(it->payload, it->used, it->tokens, it->count, out, needed, &needed);
    return code < 0 ? number_of(env, code) : block;
}

/* spell(count, used, texts, into, from, first, words, payload): puts the payloads, from the texts,
 * if there are any, of the tokens from the first on that have none. Without an array to put the
 * block into it returns how many bytes of payloads there are. Else it returns the block: its
 * length, if it is put there, or an array of its own. If no tape is given it takes the one that is
 * kept. */
static napi_value spell(napi_env env, napi_callback_info info) {
    size_t argc = 8, length = 0;
    napi_value given[8];
    const Own *own = own_of(env);
    void *tokens = own->words, *payload = own->payload, *into;
    uint32_t from;
    Spelling it = {.room = WRITTEN_BYTES};
    TRY(napi_get_cb_info(env, info, &argc, given, NULL, NULL));
    TRY(napi_get_value_uint32(env, given[0], &it.count));
    TRY(napi_get_value_uint32(env, given[1], &it.used));
    if (argc > 5) {
        TRY(napi_get_value_uint32(env, given[5], &it.first));
        TRY(napi_get_typedarray_info(env, given[6], NULL, NULL, &tokens, NULL, NULL));
        TRY(napi_get_typedarray_info(env, given[7], NULL, &it.room, &payload, NULL, NULL));
    }
    it.tokens = tokens;
    it.payload = payload;
    int32_t code = settle(env, &it, given[2]);
    if (code == DAGCBOR_NO_MEMORY) return no_memory(env);
    if (code < 0) return number_of(env, code);
    if (napi_get_typedarray_info(env, given[3], NULL, &length, &into, NULL, NULL) != napi_ok)
        return number_of(env, it.used);
    TRY(napi_get_value_uint32(env, given[4], &from));
    size_t left = from < length ? length - from : 0; /* a script may have detached the array */
    return spelt(env, &it, (uint8_t *)into + from, left < SHARED ? left : SHARED);
}

/* The other calls */

/* check(block): the number of its kind. */
static napi_value check(napi_env env, napi_callback_info info) {
    size_t length;
    const uint8_t *bytes = bytes_of(env, info, &length, NULL);
    return bytes ? number_of(env, dagcbor_check(bytes, length)) : NULL;
}

/* place(bytes): the place of the refusal. */
static napi_value place(napi_env env, napi_callback_info info) {
    size_t length, needed, at;
    const uint8_t *bytes = bytes_of(env, info, &length, NULL);
    if (!bytes) return NULL;
    dagcbor_tokens(bytes, length, dagcbor_tape_into(NULL, 0), 0, &needed, &at);
    return number_of(env, (int64_t)at);
}

/* The two arguments, which are bytes, and what the call is told. */
static bool both(napi_env env, napi_callback_info info, const uint8_t *bytes[2], size_t lengths[2],
                 void **about) {
    size_t count = 2;
    napi_value given[2];
    if (napi_get_cb_info(env, info, &count, given, NULL, about) == napi_ok &&
        (bytes[0] = bytes_in(env, given[0], &lengths[0])) &&
        (bytes[1] = bytes_in(env, given[1], &lengths[1])))
        return true;
    no_bytes(env);
    return false;
}

/* A call that is led from a block to an item of it, and says where that is. */
typedef int32_t Lead(const uint8_t *block, size_t length, const uint8_t *by, size_t count,
                     size_t places[3]);

static int32_t part(const uint8_t *block, size_t length, const uint8_t *segment, size_t count,
                    size_t places[3]) {
    return dagcbor_part(block, length, segment, count, &places[0], &places[1]);
}

/* follow(block, path): a Float64Array of the kind of the last item to which a front of the path
 * leads, where it begins and ends, and how many bytes of the path lead there. part(block, segment):
 * the same of the part to which the segment leads, taken whole. */
static napi_value lead(napi_env env, napi_callback_info info) {
    const uint8_t *given[2];
    size_t lengths[2], places[3] = {0};
    void *call;
    if (!both(env, info, given, lengths, &call)) return NULL;
    int32_t code = ((Lead *)call)(given[0], lengths[0], given[1], lengths[1], places);
    double told[] = {code, (double)places[0], (double)places[1], (double)places[2]};
    return code < 0 ? number_of(env, code) : doubles(env, told, 4);
}

/* verify(cid, block): the number of the verdict on the two. */
static napi_value verify(napi_env env, napi_callback_info info) {
    const uint8_t *given[2];
    size_t lengths[2];
    if (!both(env, info, given, lengths, NULL)) return NULL;
    return number_of(env, dagcbor_verify(given[0], lengths[0], given[1], lengths[1]));
}

/* tape(block): a BigUint64Array of three numbers for each token. */
static napi_value tape(napi_env env, napi_callback_info info) {
    size_t length, count;
    void *tokens;
    const uint8_t *bytes = bytes_of(env, info, &length, NULL);
    if (!bytes) return NULL;
    int32_t code = dagcbor_tape(bytes, length, dagcbor_tape_into(NULL, 0), 0, &count);
    if (code < 0) return number_of(env, code);
    napi_value answer = new_array(env, napi_biguint64_array, 3 * count, sizeof(uint64_t), &tokens);
    if (answer) dagcbor_tape(bytes, length, tokens, count, &count);
    return answer;
}

/* A call that puts bytes into room. All have place in it or nothing is put. */
typedef int32_t Put(const uint8_t *given, size_t length, uint8_t *out, size_t room, size_t *needed,
                    size_t *place);

static int32_t links(const uint8_t *block, size_t length, uint8_t *out, size_t room, size_t *needed,
                     size_t *place) {
    (void)place;
    return dagcbor_links(block, length, out, room, needed);
}

static int32_t to_node(const uint8_t *block, size_t length, uint8_t *out, size_t room,
                       size_t *needed, size_t *place) {
    (void)place;
    return dagcbor_to_node(block, length, out, room, needed);
}

/* A Uint8Array of what the call puts. links(block), nodeLinks(node): the links, packed: a byte of
 * length before each. fromNode(node): its data model as a block of DAG-CBOR. toNode(block): the
 * block of DAG-PB whose data model it has. */
static napi_value put_bytes(napi_env env, napi_callback_info info) {
    size_t length, needed, place;
    uint8_t *out;
    void *call;
    const uint8_t *bytes = bytes_of(env, info, &length, &call);
    if (!bytes) return NULL;
    int32_t code = ((Put *)call)(bytes, length, dagcbor_into(NULL, 0), 0, &needed, &place);
    if (code < 0 && code != DAGCBOR_NO_ROOM) return number_of(env, code);
    napi_value answer = new_bytes(env, needed, &out);
    if (answer) ((Put *)call)(bytes, length, dagcbor_into(out, needed), needed, &needed, &place);
    return answer;
}

/* placeInNode(bytes): the place of the fault for which they are not a block of DAG-PB. */
static napi_value place_in_node(napi_env env, napi_callback_info info) {
    size_t length, needed, place = 0;
    const uint8_t *node = bytes_of(env, info, &length, NULL);
    if (!node) return NULL;
    dagcbor_from_node(node, length, dagcbor_into(NULL, 0), 0, &needed, &place);
    return number_of(env, (int64_t)place);
}

/* name(bytes): their name as a block, a text of its bytes. */
static napi_value name(napi_env env, napi_callback_info info) {
    size_t length;
    const uint8_t *bytes = bytes_of(env, info, &length, NULL);
    uint8_t out[36];
    if (!bytes) return NULL;
    dagcbor_name(bytes, length, out);
    return latin1(env, out, sizeof out);
}

/* cidText(bytes): the text of the CID whose bytes the text has. */
static napi_value cid_text(napi_env env, napi_callback_info info) {
    size_t length, needed;
    char bytes[DAGCBOR_CID_MOST + 2]; /* and one more, for what is too long, and a zero */
    uint8_t text[DAGCBOR_CID_TEXT_MOST];
    napi_value given = argument(env, info, NULL);
    if (!given) return NULL;
    TRY(napi_get_value_string_latin1(env, given, bytes, sizeof bytes, &length));
    int32_t code = dagcbor_cid_text((const uint8_t *)bytes, length, text, sizeof text, &needed);
    return code < 0 ? number_of(env, code) : latin1(env, text, needed);
}

/* cidFromText(text): a text of the bytes of its CID. */
static napi_value cid_from_text(napi_env env, napi_callback_info info) {
    size_t length, needed;
    char text[256]; /* the front of a longer one is too long likewise */
    uint8_t cid[DAGCBOR_CID_MOST];
    napi_value given = argument(env, info, NULL);
    if (!given) return NULL;
    TRY(napi_get_value_string_utf8(env, given, text, sizeof text, &length));
    int32_t code = dagcbor_cid_from_text((const uint8_t *)text, length, cid, sizeof cid, &needed);
    return code < 0 ? number_of(env, code) : latin1(env, cid, needed);
}

static void own_free(napi_env env, void *own, void *hint) {
    (void)env, (void)hint;
    free(own);
}

/* An array that is kept, which stays as long as the environment. */
static bool put_array(napi_env env, napi_value exports, const char *name, napi_typedarray_type type,
                      size_t count, void **at) {
    napi_ref reference;
    size_t size = type == napi_uint32_array ? sizeof(uint32_t) : 1;
    napi_value array = new_array(env, type, count, size, at);
    return array && napi_create_reference(env, array, 1, &reference) == napi_ok &&
           napi_set_named_property(env, exports, name, array) == napi_ok;
}

static bool put_own(napi_env env, napi_value exports) {
    Own *own = calloc(1, sizeof *own);
    if (!own || napi_set_instance_data(env, own, own_free, NULL) != napi_ok) return false;
    return put_array(env, exports, "kept", napi_uint32_array, 3 * KEPT_TOKENS, &own->kept) &&
           put_array(env, exports, "words", napi_uint32_array, 6 * WRITTEN_TOKENS, &own->words) &&
           put_array(env, exports, "payload", napi_uint8_array, WRITTEN_BYTES, &own->payload);
}

NAPI_MODULE_INIT() {
    const napi_property_descriptor all[] = {
        CALL("read", read_tape, NULL), CALL("texts", make_texts, NULL), CALL("spell", spell, NULL),
        CALL("check", check, NULL), CALL("place", place, NULL), CALL("tape", tape, NULL),
        CALL("name", name, NULL), CALL("verify", verify, NULL),
        CALL("follow", lead, dagcbor_follow), CALL("part", lead, part),
        CALL("links", put_bytes, links), CALL("nodeLinks", put_bytes, dagcbor_node_links),
        CALL("fromNode", put_bytes, dagcbor_from_node), CALL("toNode", put_bytes, to_node),
        CALL("placeInNode", place_in_node, NULL),
        CALL("cidText", cid_text, NULL), CALL("cidFromText", cid_from_text, NULL),
        CALL("carOpen", car_open, NULL), CALL("carGo", car_go, NULL),
        CALL("carFound", car_found, NULL)};
    napi_value shared = number_of(env, SHARED);
    if (!is_platform(env)) return NULL;
    if (!shared || !put_own(env, exports)) return raise(env, "a call of Node-API failed");
    TRY(napi_set_named_property(env, exports, "shared", shared));
    TRY(napi_define_properties(env, exports, sizeof all / sizeof *all, all));
    return exports;
}
