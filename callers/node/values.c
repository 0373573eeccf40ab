/* What both addons make of values, and take from them. */
#include "addon.h"
#if defined(__GLIBC__)
#include <gnu/libc-version.h>
#endif

void *raise(napi_env env, const char *said) {
    bool is_pending = false;
    napi_is_exception_pending(env, &is_pending);
    if (!is_pending) napi_throw_error(env, NULL, said);
    return NULL;
}

void *no_memory(napi_env env) { return raise(env, "out of memory"); }

void *no_bytes(napi_env env) {
    napi_throw_type_error(env, NULL, "a Uint8Array over memory that is not shared is wanted");
    return NULL;
}

napi_value number_of(napi_env env, int64_t number) {
    napi_value answer;
    TRY(napi_create_int64(env, number, &answer));
    return answer;
}

const uint8_t *bytes_in(napi_env env, napi_value given, size_t *length) {
    napi_value buffer;
    napi_typedarray_type type;
    void *data;
    bool is_own = false;
    if (napi_get_typedarray_info(env, given, &type, length, &data, &buffer, NULL) != napi_ok)
        return NULL;
    if (type != napi_uint8_array || napi_is_arraybuffer(env, buffer, &is_own) != napi_ok || !is_own)
        return NULL;
    return dagcbor_from(data, *length);
}

napi_value new_array(napi_env env, napi_typedarray_type type, size_t count, size_t size,
                     void **at) {
    napi_value buffer, array;
    TRY(napi_create_arraybuffer(env, count * size, at, &buffer));
    TRY(napi_create_typedarray(env, type, count, buffer, 0, &array));
    return array;
}

napi_value new_bytes(napi_env env, size_t length, uint8_t **at) {
    void *data;
    napi_value array = new_array(env, napi_uint8_array, length, 1, &data);
    if (array) *at = data;
    return array;
}

napi_value copied(napi_env env, const uint8_t *bytes, size_t length) {
    uint8_t *at;
    napi_value array = new_bytes(env, length, &at);
    if (array && length) memcpy(at, bytes, length);
    return array;
}

napi_value array_of(napi_env env, const napi_value *parts, uint32_t count) {
    napi_value array;
    TRY(napi_create_array_with_length(env, count, &array));
    for (uint32_t i = 0; i < count; i++) TRY(napi_set_element(env, array, i, parts[i]));
    return array;
}

napi_value doubles(napi_env env, const void *numbers, size_t count) {
    void *at;
    napi_value array = new_array(env, napi_float64_array, count, sizeof(double), &at);
    if (array && count) memcpy(at, numbers, count * sizeof(double));
    return array;
}

/* Only glibc has such a call: so no other C library loads what was compiled with it. */
static bool has_library(void) {
#if defined(__GLIBC__)
    return *gnu_get_libc_version() != '\0';
#else
    return true;
#endif
}

bool is_platform(napi_env env) {
    bool has_processor = true;
#if defined(__x86_64__)
    __builtin_cpu_init();
    has_processor = __builtin_cpu_supports("sse4.2") && __builtin_cpu_supports("popcnt");
#endif
    if (has_processor && has_library()) return true;
    raise(env, "dagcbor wants an x86-64-v2 processor");
    return false;
}

static void at_work(napi_env env, void *work) {
    (void)env;
    ((Work *)work)->run(work);
}

/* Settles the promise. */
static void at_end(napi_env env, napi_status status, void *given) {
    Work *work = given;
    napi_deferred deferred = work->deferred;
    napi_value error;
    napi_delete_async_work(env, work->async);
    napi_value answer = work->end(env, work, status == napi_ok);
    if (answer) napi_resolve_deferred(env, deferred, answer);
    else if (napi_get_and_clear_last_exception(env, &error) == napi_ok)
        napi_reject_deferred(env, deferred, error);
}

napi_value promise_of(napi_env env, Work *work) {
    napi_value name, promise;
    TRY(napi_create_string_latin1(env, "dagcbor", NAPI_AUTO_LENGTH, &name));
    TRY(napi_create_async_work(env, NULL, name, at_work, at_end, work, &work->async));
    if (napi_create_promise(env, &work->deferred, &promise) == napi_ok &&
        napi_queue_async_work(env, work->async) == napi_ok)
        return promise;
    napi_delete_async_work(env, work->async);
    return raise(env, "no work was begun");
}
