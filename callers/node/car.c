/* CAR files for Node: a thread of the pool reads the sections that stand whole in the bytes at
   hand, which car_walk.js keeps, and does not write meanwhile. It asks for one thing at a time. */
#include "addon.h"

#include "car.h"

enum { SLICE = 1 << 22 /* of a file, that is gone through by one work */ };

/* A section: the number of its verdict, and its places, counted from the bytes at hand. */
typedef struct {
    double code, cid, block, end;
} Told;

typedef struct {
    Work work;
    Check check;
    bool is_check; /* whose names are noted; else its sections are told */
    bool is_behind_header, is_busy;
    napi_ref kept; /* the bytes at hand, and itself */
    int32_t code;  /* why the work stopped, or 0 */
    Bytes told;
} Walk;

static void walk_free(napi_env env, void *given, void *hint) {
    Walk *walk = given;
    (void)env, (void)hint;
    check_free(&walk->check);
    bytes_free(&walk->told);
    free(walk);
}

/* Tells the sections at hand, up to this many bytes. Returns why it stopped, or 0. */
static int32_t tell_sections(Walk *walk, size_t most) {
    Car *car = &walk->check.car;
    size_t places[3];
    for (size_t at = 0; at < most; at += places[2]) {
        int32_t code = car_section(car, SIZE_MAX, places);
        if (!is_verdict(code)) return code;
        Told told = {code, (double)(at + places[0]), (double)(at + places[1]),
                     (double)(at + places[2])};
        if (!bytes_add(&walk->told, (const uint8_t *)&told, sizeof told))
            return car_back(car, CAR_NO_MEMORY);
    }
    return 0;
}

/* Goes on through the bytes at hand. */
static int32_t go_on(Walk *walk) {
    Check *check = &walk->check;
    if (walk->is_behind_header)
        return walk->is_check ? check_sections(check, SLICE) : tell_sections(walk, SLICE);
    int32_t code = car_header(&check->car);
    if (code != DAGCBOR_CAR_HEADER) return code;
    walk->is_behind_header = true;
    bool has_memory = names_want(&check->names, check->car.roots.start, check->car.roots.used);
    return has_memory ? 0 : CAR_NO_MEMORY;
}

static void walk_run(Work *work) {
    Walk *walk = (Walk *)work;
    walk->told.used = 0;
    walk->code = go_on(walk);
}

/* [code, place, version, numbers]: why the work stopped, and where; four numbers of each
 * section. */
static napi_value answer_of(napi_env env, Walk *walk) {
    const dagcbor_car_walk *at = &walk->check.car.walk;
    napi_value parts[4];
    if (walk->code == CAR_NO_MEMORY) return no_memory(env);
    if (walk->code == CAR_FAILED) return raise(env, "no digest was computed");
    if (!(parts[0] = number_of(env, walk->code))) return NULL;
    TRY(napi_create_double(env, (double)at->place, &parts[1]));
    if (!(parts[2] = number_of(env, at->version))) return NULL;
    parts[3] = doubles(env, walk->told.start, 4 * (walk->told.used / sizeof(Told)));
    return parts[3] ? array_of(env, parts, 4) : NULL;
}

static napi_value walk_end(napi_env env, Work *work, bool is_done) {
    Walk *walk = (Walk *)work;
    walk->is_busy = false;
    napi_delete_reference(env, walk->kept);
    return is_done ? answer_of(env, walk) : no_memory(env);
}

/* carOpen(isCheck): a walk through a file of which nothing is read yet. */
napi_value car_open(napi_env env, napi_callback_info info) {
    size_t count = 1;
    napi_value given, answer;
    bool is_check;
    TRY(napi_get_cb_info(env, info, &count, &given, NULL, NULL));
    TRY(napi_get_value_bool(env, given, &is_check));
    Walk *walk = calloc(1, sizeof *walk);
    if (!walk) return no_memory(env);
    walk->is_check = is_check;
    walk->work = (Work){.run = walk_run, .end = walk_end};
    if (!check_start(&walk->check) ||
        napi_create_external(env, walk, walk_free, NULL, &answer) != napi_ok) {
        walk_free(env, walk, NULL);
        return raise(env, "no walk was begun");
    }
    return answer;
}

/* The walk that is the first of this many arguments, if no work is on its way. */
static Walk *walk_of(napi_env env, napi_callback_info info, size_t count, napi_value *given) {
    void *walk;
    TRY(napi_get_cb_info(env, info, &count, given, NULL, NULL));
    TRY(napi_get_value_external(env, given[0], &walk));
    return ((Walk *)walk)->is_busy ? raise(env, "the walk is already at work") : walk;
}

/* The script that computes SHA-256, for blocks of this many bytes or more. */
typedef struct {
    napi_env env;
    napi_value call;
    uint32_t least;
} Script;

static int is_digest(void *given, const uint8_t *block, size_t length, const uint8_t digest[32]) {
    const Script *script = given;
    napi_env env = script->env;
    napi_handle_scope scope;
    napi_value bytes, none, found;
    int is_same = -1;
    if (length < script->least) return 0;
    if (napi_open_handle_scope(env, &scope) != napi_ok) return -1;
    if ((bytes = copied(env, block, length)) && napi_get_undefined(env, &none) == napi_ok &&
        napi_call_function(env, none, script->call, 1, &bytes, &found) == napi_ok) {
        const uint8_t *at = bytes_in(env, found, &length);
        if (at && length == 32) is_same = memcmp(at, digest, 32) == 0;
        else napi_throw_type_error(env, NULL, "sha256 answers no Uint8Array of 32 bytes");
    }
    napi_close_handle_scope(env, scope);
    return is_same;
}

/* The answer itself, by this thread, as a script runs that computes digests. */
static napi_value go_here(napi_env env, Walk *walk, Script *script) {
    walk->check.car.host = script;
    walk->check.car.is_digest = script ? is_digest : NULL;
    walk->is_busy = true;
    walk_run(&walk->work);
    walk->is_busy = false;
    return answer_of(env, walk);
}

/* carGo(walk, bytes, isWhole, sha256, least): what is found in the bytes at hand, which begin at
 * the place where it stopped; isWhole says if none follow them. If sha256 is a script, which
 * computes digests, or null, this thread answers; else it returns a promise of the answer, by a
 * thread of the pool. */
napi_value car_go(napi_env env, napi_callback_info info) {
    napi_value given[5], kept;
    napi_valuetype type;
    Script script = {.env = env};
    Walk *walk = walk_of(env, info, 5, given);
    if (!walk) return NULL;
    Car *car = &walk->check.car;
    TRY(napi_get_value_bool(env, given[2], &car->is_whole));
    TRY(napi_typeof(env, script.call = given[3], &type));
    TRY(napi_get_value_uint32(env, given[4], &script.least));
    if (!(car->bytes = bytes_in(env, given[1], &car->length))) return no_bytes(env);
    car->place = car->walk.place;
    if (type != napi_undefined) return go_here(env, walk, type == napi_null ? NULL : &script);
    if (!(kept = array_of(env, given, 2))) return NULL;
    TRY(napi_create_reference(env, kept, 1, &walk->kept));
    napi_value promise = promise_of(env, &walk->work);
    walk->is_busy = promise != NULL;
    if (!promise) napi_delete_reference(env, walk->kept);
    return promise;
}

/* The names that are wanted and not held, packed. */
static napi_value missing_of(napi_env env, const Names *names) {
    uint8_t *at;
    napi_value missing = new_bytes(env, names_pack(names, false, NULL), &at);
    if (missing) names_pack(names, false, at);
    return missing;
}

/* carFound(walk): [roots, counts, missing]. Names are packed; the counts are those of the
 * verdicts, from the least number on; none are missing before a check is at its end. */
napi_value car_found(napi_env env, napi_callback_info info) {
    napi_value given, parts[3];
    double counts[VERDICTS];
    Walk *walk = walk_of(env, info, 1, &given);
    if (!walk) return NULL;
    Check *check = &walk->check;
    if (walk->is_check && !check_inside(check)) return no_memory(env);
    if (!(parts[0] = copied(env, check->car.roots.start, check->car.roots.used))) return NULL;
    for (int i = 0; i < VERDICTS; i++) counts[i] = (double)check->verdicts[i];
    if (!(parts[1] = doubles(env, counts, VERDICTS))) return NULL;
    parts[2] = walk->is_check ? missing_of(env, &check->names) : copied(env, NULL, 0);
    if (!parts[2]) return NULL;
    return array_of(env, parts, 3);
}
