/* What the parts of the extension share: the module's state, CIDs, and bytes. */
#ifndef DAGCBOR_NATIVE_H
#define DAGCBOR_NATIVE_H

#define Py_LIMITED_API 0x030B0000
#define PY_SSIZE_T_CLEAN
#include <Python.h>

#include "dagcbor.h"
#include "reasons.h"
#include <stdbool.h>

/* What the module holds. The errors are those of dagcbor._errors. */
typedef union {
    struct {
        PyTypeObject *cid, *car_reader, *section;
        PyObject *error, *car_error;
    };
    PyObject *all[5];
} State;

typedef struct {
    PyObject_HEAD
    PyObject *bytes;
} Cid;

/* Up to this many bytes are judged and hashed with the interpreter's lock held. */
enum { SHORT_CALL = 4096 };

static inline void *no_memory(void) {
    PyErr_NoMemory();
    return NULL;
}

static inline const uint8_t *bytes_of(PyObject *bytes) {
    return (const uint8_t *)PyBytes_AsString(bytes);
}

static inline size_t length_of(PyObject *bytes) { return (size_t)PyBytes_Size(bytes); }

/* A `bytes` with what the argument holds: the argument itself, if it is one, and of no subclass. */
PyObject *to_bytes(PyObject *given);

PyObject *new_cid(PyTypeObject *type, const uint8_t *bytes, size_t length);

/* The packed CIDs: a byte of length before each. */
PyObject *unpack(State *state, const uint8_t *packed, size_t length);

/* An error of the type. It takes the references to the words and the place. If one is NULL, the
 * error that is raised already stays, and no other is made. */
PyObject *new_error(PyObject *type, PyObject *said, const char *kind, PyObject *place);

/* Raises it, and lets it go. */
void *raise_error(PyObject *error);

/* Of CAR files */
extern PyType_Spec car_reader_spec;
extern PyStructSequence_Desc section_desc;
PyObject *read_car(PyObject *module, PyObject *args, PyObject *named);
PyObject *check_car(PyObject *module, PyObject *args);
PyObject *verdict_on(PyObject *module, PyObject *args);

#endif
