/* What takes memory, for Node. It is an addon of its own, because its library takes memory and the
   other does not. A thread of the pool reads a file, in memory that no script writes meanwhile.
   While the library reads a frame no script runs, and memory that another thread may write is
   refused. */
#define _GNU_SOURCE // NOLINT: the C library names it so; for the place of a stack
#include "addon.h"

#include "asking.h"
#include "reasons.h"
#include "heap.c"
#include <pthread.h>

/* glibc has moved these two since. By their first versions each glibc loads the addon that Node does. */
#if defined(__GLIBC__) && defined(__x86_64__)
#define FIRST "GLIBC_2.2.5"
#elif defined(__GLIBC__) && defined(__aarch64__)
#define FIRST "GLIBC_2.17"
#endif
#ifdef FIRST
__asm__(".symver pthread_getattr_np, pthread_getattr_np@" FIRST);
__asm__(".symver pthread_attr_getstack, pthread_attr_getstack@" FIRST);
#endif

enum { STACK = 1 << 20 }; /* bytes that a call of the library wants */

/* [code, bytes]: what was answered. */
static napi_value answer_of(napi_env env, const Question *it) {
    napi_value parts[2];
    if (it->code == DAGCBOR_NO_MEMORY) return no_memory(env);
    if (!(parts[0] = number_of(env, it->code))) return NULL;
    if (!(parts[1] = copied(env, it->answer, it->needed))) return NULL;
    return array_of(env, parts, 2);
}

/* This many arguments, which are bytes, and what the call is told; false, with an exception thrown,
 * if they are not. */
static bool takes(napi_env env, napi_callback_info info, size_t count, napi_value *given,
                  Lent *bytes, void **about) {
    size_t given_count = count;
    bool are = napi_get_cb_info(env, info, &given_count, given, NULL, about) == napi_ok;
    for (size_t i = 0; are && i < count; i++)
        are = (bytes[i].at = bytes_in(env, given[i], &bytes[i].length)) != NULL;
    if (!are) no_bytes(env);
    return are;
}

/* Of files */

/* A question about a file, which a thread of the pool asks. */
typedef struct {
    Work work;
    Question question;
    Call *call;
    napi_ref kept; /* the bytes */
} Task;

static void task_run(Work *work) {
    Task *task = (Task *)work;
    ask(&task->question, task->call);
}

static napi_value task_end(napi_env env, Work *work, bool is_done) {
    Task *task = (Task *)work;
    napi_value answer = is_done ? answer_of(env, &task->question) : no_memory(env);
    napi_delete_reference(env, task->kept);
    free(task->question.answer);
    free(task);
    return answer;
}

/* repository(file, no bytes), commit(file, no bytes), recordProof(file, key), of bytes that nobody
 * writes meanwhile: a promise of 0, and the block that tells of the repository or of the commit, or
 * the file that decides which record the key has; or of 1, and the line that tells why there is
 * none. */
static napi_value ask_later(napi_env env, napi_callback_info info) {
    napi_value given[2], kept, promise = NULL;
    Lent bytes[2];
    void *call;
    if (!takes(env, info, 2, given, bytes, &call)) return NULL;
    Task *task = calloc(1, sizeof *task);
    if (!task) return no_memory(env);
    *task = (Task){.work = {.run = task_run, .end = task_end}, .call = call};
    task->question.bytes = bytes[0];
    task->question.key = bytes[1];
    if ((kept = array_of(env, given, 2)) &&
        napi_create_reference(env, kept, 1, &task->kept) == napi_ok)
        promise = promise_of(env, &task->work);
    if (promise) return promise;
    free(task);
    return raise(env, "no work was begun");
}

/* Of frames */

/* The lowest address of this thread's stack, or NULL if it is not known. */
static void *end_of_stack(void) {
    pthread_attr_t about;
    void *lowest = NULL;
    size_t size;
    if (pthread_getattr_np(pthread_self(), &about) != 0) return NULL;
    if (pthread_attr_getstack(&about, &lowest, &size) != 0) lowest = NULL;
    pthread_attr_destroy(&about);
    return lowest;
}

/* True if the thread has as much of it left as a call needs, and some more for what is made of the
 * answer: a script of a worker may have taken it. */
static bool has_stack(napi_env env) {
    void *lowest = NULL;
    napi_get_instance_data(env, &lowest);
    return (uintptr_t)__builtin_frame_address(0) - (uintptr_t)lowest > STACK + STACK / 8;
}

/* The bytes that are the arguments, if the stack is enough. */
static bool are_lent(napi_env env, napi_callback_info info, size_t count, Lent *bytes) {
    napi_value given[3];
    if (has_stack(env)) return takes(env, info, count, given, bytes, NULL);
    napi_throw_range_error(env, NULL, "a frame is read with 1 MB of the stack left");
    return false;
}

/* eventFrame(bytes): of the frame at their front a Float64Array of the number of its kind, of where
 * its body begins, and of where it ends; or the number of why there is none. */
static napi_value event_frame(napi_env env, napi_callback_info info) {
    Lent bytes = {0};
    size_t body = 0, end = 0;
    if (!are_lent(env, info, 1, &bytes)) return NULL;
    int32_t code = dagcbor_event_frame(bytes.at, bytes.length, &body, &end);
    double told[] = {code, (double)body, (double)end};
    if (code == DAGCBOR_NO_MEMORY) return no_memory(env);
    return code < 0 ? number_of(env, code) : doubles(env, told, 3);
}

/* verifyEvent(frame, root, rev): [0, block], which tells what is verified; or the number of why it
 * is not, and the CID of a node. */
static napi_value verify_event(napi_env env, napi_callback_info info) {
    Lent given[3] = {{0}};
    if (!are_lent(env, info, 3, given)) return NULL;
    Question question = {.bytes = given[0], .root = given[1], .rev = given[2]};
    ask(&question, event_of);
    napi_value answer = answer_of(env, &question);
    free(question.answer);
    return answer;
}

/* The reason of a number: its name, and words. */
static napi_value reason(napi_env env, napi_callback_info info) {
    size_t count = 1;
    napi_value given, parts[2];
    int32_t code;
    TRY(napi_get_cb_info(env, info, &count, &given, NULL, NULL));
    TRY(napi_get_value_int32(env, given, &code));
    TRY(napi_create_string_utf8(env, dagcbor_name_of_code(code), NAPI_AUTO_LENGTH, &parts[0]));
    TRY(napi_create_string_utf8(env, reason_of_code(code), NAPI_AUTO_LENGTH, &parts[1]));
    return array_of(env, parts, 2);
}

NAPI_MODULE_INIT() {
    const napi_property_descriptor all[] = {
        CALL("repository", ask_later, repository_of), CALL("commit", ask_later, commit_of),
        CALL("recordProof", ask_later, proof_of), CALL("eventFrame", event_frame, NULL),
        CALL("verifyEvent", verify_event, NULL), CALL("reason", reason, NULL)};
    if (!is_platform(env)) return NULL;
    TRY(napi_set_instance_data(env, end_of_stack(), NULL, NULL));
    TRY(napi_define_properties(env, exports, sizeof all / sizeof *all, all));
    return exports;
}
