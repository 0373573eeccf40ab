/* What takes memory, for Python, by the limited API. It is an extension of its own, because its
   library takes memory and the other does not. */
#define Py_LIMITED_API 0x030B0000
#define PY_SSIZE_T_CLEAN
#include <Python.h>
#include <stdbool.h>

#include "asking.h"
#include "heap.c"

/* What the call returns: its number, the bytes, and the place. The interpreter's lock is let go. */
static PyObject *answer_to(Question *it, Call *call) {
    PyObject *answer = NULL;
    Py_BEGIN_ALLOW_THREADS
    ask(it, call);
    Py_END_ALLOW_THREADS
    if (it->code == DAGCBOR_NO_MEMORY) PyErr_NoMemory();
    else
        answer = Py_BuildValue("iy#n", (int)it->code, (const char *)it->answer,
                               (Py_ssize_t)it->needed, (Py_ssize_t)it->place);
    free(it->answer);
    return answer;
}

/* Checks that it is a `bytes`, which is lent. */
static bool takes(PyObject *given, Lent *lent) {
    if (!PyBytes_Check(given)) return PyErr_SetString(PyExc_TypeError, "bytes are wanted"), false;
    *lent = (Lent){(const uint8_t *)PyBytes_AsString(given), (size_t)PyBytes_Size(given)};
    return true;
}

static PyObject *answer_of(PyObject *bytes, Call *call) {
    Question it = {0};
    return takes(bytes, &it.bytes) ? answer_to(&it, call) : NULL;
}

/* repository(file): 0, and the block that tells of the repository; or 1, and the line that tells
   why the file is not one. commit(file): the same for only the commit that the first root names.
   to_json(block): the number of its kind, and the text; or that of the refusal. from_json(text):
   the number of the kind, and the block; or that of the refusal, and the place. */
#define OF_BYTES(name, call)                                   \
    static PyObject *name(PyObject *module, PyObject *bytes) { \
        (void)module;                                          \
        return answer_of(bytes, call);                         \
    }

OF_BYTES(repository, repository_of)
OF_BYTES(commit, commit_of)
OF_BYTES(to_json, json_of)
OF_BYTES(from_json, block_of)

/* proof_of_record(file, key): 0, and the file that proves the record; or 1, and the line that tells why there
   is none. */
static PyObject *proof_of_record(PyObject *module, PyObject *args) {
    (void)module;
    PyObject *file, *key;
    Question it = {0};
    if (!PyArg_ParseTuple(args, "OO", &file, &key)) return NULL;
    return takes(file, &it.bytes) && takes(key, &it.key) ? answer_to(&it, proof_of) : NULL;
}

/* event_frame(bytes, start): for the frame that stands there the number of its kind, or of why
   there is none; and where its body begins, and where it ends. */
static PyObject *event_frame(PyObject *module, PyObject *args) {
    (void)module;
    PyObject *held;
    Py_ssize_t start;
    Lent bytes;
    size_t body, end;
    if (!PyArg_ParseTuple(args, "On", &held, &start) || !takes(held, &bytes)) return NULL;
    if (start < 0 || (size_t)start > bytes.length)
        return PyErr_SetString(PyExc_ValueError, "no place of the bytes"), NULL;
    int32_t code;
    Py_BEGIN_ALLOW_THREADS
    code = dagcbor_event_frame(bytes.at + start, bytes.length - (size_t)start, &body, &end);
    Py_END_ALLOW_THREADS
    if (code == DAGCBOR_NO_MEMORY) return PyErr_NoMemory();
    return Py_BuildValue("inn", (int)code, start + (Py_ssize_t)body, start + (Py_ssize_t)end);
}

/* verify_event(frame, root, rev): 0, and the block of what is verified; or the number of why it is not, and
   the CID of a node. */
static PyObject *verify_event(PyObject *module, PyObject *args) {
    (void)module;
    PyObject *frame, *root, *rev;
    Question it = {0};
    if (!PyArg_ParseTuple(args, "OOO", &frame, &root, &rev)) return NULL;
    bool are_bytes = takes(frame, &it.bytes) && takes(root, &it.root) && takes(rev, &it.rev);
    return are_bytes ? answer_to(&it, event_of) : NULL;
}

static PyMethodDef METHODS[] = {
    {"repository", repository, METH_O, NULL},
    {"commit", commit, METH_O, NULL},
    {"proof_of_record", proof_of_record, METH_VARARGS, NULL},
    {"to_json", to_json, METH_O, NULL},
    {"from_json", from_json, METH_O, NULL},
    {"event_frame", event_frame, METH_VARARGS, NULL},
    {"verify_event", verify_event, METH_VARARGS, NULL},
    {NULL, NULL, 0, NULL},
};

static PyModuleDef_Slot SLOTS[] = {{0, NULL}};

static struct PyModuleDef MODULE = {
    .m_base = PyModuleDef_HEAD_INIT,
    .m_name = "dagcbor._native_memory",
    .m_methods = METHODS,
    .m_slots = SLOTS,
};

PyMODINIT_FUNC PyInit__native_memory(void);
PyMODINIT_FUNC PyInit__native_memory(void) { return PyModuleDef_Init(&MODULE); }
