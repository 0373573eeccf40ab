/* What the parts of the addons share. */
#ifndef DAGCBOR_ADDON_H
#define DAGCBOR_ADDON_H

#define NAPI_VERSION 8
#include "dagcbor.h"
#include <node_api.h>
#include <stdbool.h>
#include <stdlib.h>
#include <string.h>

/* If a call of Node-API fails, an exception is pending, or `raise` makes one. */
#define TRY(call)                                                              \
    do {                                                                       \
        if ((call) != napi_ok) return raise(env, "a call of Node-API failed"); \
    } while (0)

void *raise(napi_env env, const char *said);
void *no_memory(napi_env env);
void *no_bytes(napi_env env); /* a TypeError */
napi_value number_of(napi_env env, int64_t number);

/* The bytes of a Uint8Array over memory that is not shared; else NULL. An empty one may have no
 * address. */
const uint8_t *bytes_in(napi_env env, napi_value given, size_t *length);

/* A typed array of its own, of this many numbers of that size, and where they stand. */
napi_value new_array(napi_env env, napi_typedarray_type type, size_t count, size_t size, void **at);

/* A Uint8Array of its own, and where its bytes stand. */
napi_value new_bytes(napi_env env, size_t length, uint8_t **at);
napi_value copied(napi_env env, const uint8_t *bytes, size_t length);

napi_value doubles(napi_env env, const void *numbers, size_t count); /* a Float64Array of them */
napi_value array_of(napi_env env, const napi_value *parts, uint32_t count);

/* A call of an addon, by its name; and what one that serves several names is told. */
#define CALL(name, call, about) {name, NULL, call, NULL, NULL, NULL, napi_enumerable, about}

bool is_platform(napi_env env); /* for which the code is; else an exception is thrown */

/* A work for a thread of the pool, at the front of what it is about. */
typedef struct Work Work;
struct Work {
    void (*run)(Work *);
    napi_value (*end)(napi_env, Work *, bool is_done); /* the answer, by the script's thread */
    napi_async_work async;
    napi_deferred deferred;
};

/* A promise of the answer, or of the exception that is pending if it is NULL. */
napi_value promise_of(napi_env env, Work *work);

/* Of texts */
size_t put_latin1(const uint8_t *text, size_t length, uint8_t *units);
size_t put_units(const uint8_t *text, size_t length, uint16_t *units);
bool is_latin1(const uint8_t *text, size_t length);
uint8_t *put_utf8(const uint16_t *units, size_t count, uint8_t *out);

/* Of CAR files */
napi_value car_open(napi_env env, napi_callback_info info);
napi_value car_go(napi_env env, napi_callback_info info);
napi_value car_found(napi_env env, napi_callback_info info);

#endif
