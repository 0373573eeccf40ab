/* CAR files for Python: sections one at a time, and the check of a whole file.

   What the library reads is a `bytes`, or was copied into memory that is this module's own: so the
   interpreter's lock is let go while it reads, unless digests are computed in Python. */
#include "native.h"

#include "car.h"

enum {
    PIECE = 1 << 18, /* of a source, that is read at once */
    SLICE = 1 << 22  /* of a file, that is checked before signals are asked for */
};

/* Where the bytes come from: a file's method `read`, or a buffer; and what computes SHA-256, or
 * NULL. */
typedef struct {
    PyObject *read;
    PyObject *buffer;
    PyObject *sha256;
    Py_ssize_t at;
} Source;

static void source_free(Source *source) {
    Py_CLEAR(source->read);
    Py_CLEAR(source->buffer);
    Py_CLEAR(source->sha256);
}

/* True if `sha256(block).digest()` is the digest. */
static int is_digest(void *sha256, const uint8_t *block, size_t length, const uint8_t digest[32]) {
    PyObject *made = PyObject_CallFunction(sha256, "y#", (const char *)block, (Py_ssize_t)length);
    PyObject *found = made ? PyObject_CallMethod(made, "digest", NULL) : NULL;
    int is_same = -1;
    if (found && PyBytes_Check(found))
        is_same = length_of(found) == 32 && memcmp(bytes_of(found), digest, 32) == 0;
    else if (found) PyErr_SetString(PyExc_TypeError, "sha256 wants a digest of bytes");
    Py_XDECREF(found);
    Py_XDECREF(made);
    return is_same;
}

/* A `bytes` is lent as it is. From any other buffer pieces are copied when they are needed. */
static int source_open(Source *source, Car *car, PyObject *given, PyObject *sha256) {
    memset(source, 0, sizeof *source);
    if (!Py_IsNone(sha256)) {
        car->host = source->sha256 = Py_NewRef(sha256);
        car->is_digest = is_digest;
    }
    if (PyObject_CheckBuffer(given)) {
        source->buffer = Py_NewRef(given);
        if (PyBytes_Check(given)) car_lend(car, bytes_of(given), length_of(given));
        return 0;
    }
    source->read = PyObject_GetAttrString(given, "read");
    if (source->read) return 0;
    if (PyErr_ExceptionMatches(PyExc_AttributeError))
        PyErr_SetString(PyExc_TypeError, "bytes, another buffer, or a binary file is wanted");
    return -1;
}

static int gather(Car *car, const Py_buffer *view, size_t from, size_t count) {
    if (count == 0) car->is_whole = true;
    else if (!car_gather(car, (const uint8_t *)view->buf + from, count)) return no_memory(), -1;
    return 0;
}

/* Reads once, and takes what that gives. */
static int refill_from_file(Source *source, Car *car) {
    Py_buffer view;
    PyObject *piece = PyObject_CallFunction(source->read, "n", (Py_ssize_t)PIECE);
    if (!piece) return -1;
    int done = -1;
    if (Py_IsNone(piece)) PyErr_SetString(PyExc_BlockingIOError, "read() has no bytes yet");
    else if (PyObject_GetBuffer(piece, &view, PyBUF_SIMPLE) == 0) {
        done = gather(car, &view, 0, (size_t)view.len);
        PyBuffer_Release(&view);
    }
    Py_DECREF(piece);
    return done;
}

static int refill(Source *source, Car *car) {
    Py_buffer view;
    if (PyErr_CheckSignals() < 0) return -1;
    if (source->read) return refill_from_file(source, car);
    if (PyObject_GetBuffer(source->buffer, &view, PyBUF_SIMPLE) < 0) return -1;
    Py_ssize_t at = source->at < view.len ? source->at : view.len;
    Py_ssize_t count = view.len - at < PIECE ? view.len - at : PIECE;
    int done = gather(car, &view, (size_t)at, (size_t)count);
    if (done == 0) source->at = at + count;
    PyBuffer_Release(&view);
    return done;
}

/* The error for what stands at the next place of the file; NULL if another one is raised. */
static PyObject *error_in(State *state, const Car *car, int32_t code) {
    if (code == CAR_FAILED) return NULL;
    if (code == CAR_NO_MEMORY) return no_memory();
    bool has_name = code <= DAGCBOR_TRUNCATED;
    PyObject *said = PyUnicode_FromFormat("%s%s", has_name ? "" : "the header is no block: ",
                                          reason_of_code(code));
    PyObject *place = said ? PyLong_FromUnsignedLongLong(car->walk.place) : NULL;
    return new_error(state->car_error, said, has_name ? dagcbor_name_of_code(code) : "NoBlock",
                     place);
}

/* Takes the front of the file up to its roots, and returns these. */
static PyObject *take_roots(State *state, Source *source, Car *car) {
    int32_t code;
    while ((code = car_header(car)) == DAGCBOR_CAR_MORE)
        if (refill(source, car) < 0) return NULL;
    if (code != DAGCBOR_CAR_HEADER) return raise_error(error_in(state, car, code));
    return unpack(state, car->roots.start, car->roots.used);
}

/* Sections one at a time */

typedef struct {
    PyObject_HEAD
    Car car;
    Source source;
    PyObject *roots;
    bool is_busy; /* another call goes on, in which the lock was let go */
} CarReader;

PyObject *read_car(PyObject *module, PyObject *args, PyObject *named) {
    static char *names[] = {"", "sha256", NULL};
    State *state = PyModule_GetState(module);
    PyObject *given, *sha256 = Py_None;
    if (!PyArg_ParseTupleAndKeywords(args, named, "O|$O:read_car", names, &given, &sha256))
        return NULL;
    CarReader *reader = PyObject_GC_New(CarReader, state->car_reader);
    if (!reader) return NULL;
    car_start(&reader->car);
    reader->roots = NULL;
    reader->is_busy = false;
    if (source_open(&reader->source, &reader->car, given, sha256) == 0) {
        reader->roots = take_roots(state, &reader->source, &reader->car);
        bytes_free(&reader->car.roots);
    }
    if (reader->roots) PyObject_GC_Track((PyObject *)reader);
    else Py_CLEAR(reader);
    return (PyObject *)reader;
}

static int reader_traverse(PyObject *self, visitproc visit, void *arg) {
    CarReader *reader = (CarReader *)self;
    Py_VISIT(Py_TYPE(self));
    Py_VISIT(reader->roots);
    Py_VISIT(reader->source.read);
    Py_VISIT(reader->source.buffer);
    Py_VISIT(reader->source.sha256);
    return 0;
}

/* Lets go of the file, and puts nothing in its place. */
static int reader_clear(PyObject *self) {
    CarReader *reader = (CarReader *)self;
    source_free(&reader->source);
    car_free(&reader->car);
    car_start(&reader->car);
    reader->car.is_whole = true;
    reader->car.walk.step = 1;
    Py_CLEAR(reader->roots);
    return 0;
}

static void reader_dealloc(PyObject *self) {
    PyTypeObject *type = Py_TYPE(self);
    PyObject_GC_UnTrack(self);
    reader_clear(self);
    PyObject_GC_Del(self);
    Py_DECREF(type);
}

/* The verdict on the next section, or why there is none, if all of it is at hand. */
static int32_t next_section(Car *car, size_t places[3]) {
    int32_t code = car_section(car, car->is_digest ? SIZE_MAX : SHORT_CALL, places);
    if (code != DAGCBOR_CAR_MORE || car->is_digest || car->length <= SHORT_CALL) return code;
    Py_BEGIN_ALLOW_THREADS
    code = car_section(car, SIZE_MAX, places);
    Py_END_ALLOW_THREADS
    return code;
}

/* The verdict on a section, in the words of `dagcar check`. */
static PyObject *verdict_of(int32_t code) {
    switch (code) {
    case DAGCBOR_NOT_READ: return PyUnicode_FromString("not read");
    case DAGCBOR_OTHER_BYTES: return PyUnicode_FromString("other bytes");
    case DAGCBOR_NOT_VERIFIED: return PyUnicode_FromString("not verified");
    }
    return PyUnicode_FromFormat(code < 0 ? "refused %s" : "ok %s", dagcbor_name_of_code(code));
}

static PyObject *new_section(State *state, const Car *car, int32_t code, const size_t places[3]) {
    const char *at = (const char *)car->bytes;
    return PyObject_CallFunction(
        (PyObject *)state->section, "((NNN))",
        new_cid(state->cid, car->bytes + places[0], places[1] - places[0]),
        PyBytes_FromStringAndSize(at + places[1], (Py_ssize_t)(places[2] - places[1])),
        verdict_of(code));
}

static PyObject *take_section(State *state, CarReader *reader) {
    Car *car = &reader->car;
    size_t places[3];
    int32_t code;
    while ((code = next_section(car, places)) == DAGCBOR_CAR_MORE)
        if (refill(&reader->source, car) < 0) return NULL;
    if (code == DAGCBOR_CAR_END) return NULL;
    if (!is_verdict(code)) return raise_error(error_in(state, car, code));
    PyObject *section = new_section(state, car, code, places);
    if (!section) car_back(car, code);
    return section;
}

static PyObject *reader_next(PyObject *self) {
    CarReader *reader = (CarReader *)self;
    State *state = PyType_GetModuleState(Py_TYPE(self));
    if (!state) return NULL;
    if (reader->is_busy)
        return PyErr_SetString(PyExc_ValueError, "the reader is already at work"), NULL;
    reader->is_busy = true;
    PyObject *section = take_section(state, reader);
    reader->is_busy = false;
    /* If the source raised it, it would be taken for the end of the sections. */
    if (!section && PyErr_Occurred() && PyErr_ExceptionMatches(PyExc_StopIteration))
        PyErr_SetString(PyExc_RuntimeError, "the source raised StopIteration");
    return section;
}

static PyObject *reader_roots(PyObject *self, void *unused) {
    (void)unused;
    PyObject *roots = ((CarReader *)self)->roots;
    return roots ? PyList_GetSlice(roots, 0, PY_SSIZE_T_MAX) : PyList_New(0);
}

static PyGetSetDef reader_members[] = {
    {"roots", reader_roots, NULL, "The roots, in their order.", NULL},
    {NULL, NULL, NULL, NULL, NULL},
};

static PyType_Slot reader_slots[] = {
    {Py_tp_doc, "The sections of a CAR file, one at a time, and its roots."},
    {Py_tp_dealloc, reader_dealloc},
    {Py_tp_traverse, reader_traverse},
    {Py_tp_clear, reader_clear},
    {Py_tp_iter, PyObject_SelfIter},
    {Py_tp_iternext, reader_next},
    {Py_tp_getset, reader_members},
    {0, NULL},
};

PyType_Spec car_reader_spec = {
    .name = "dagcbor.CarReader",
    .basicsize = sizeof(CarReader),
    .flags = Py_TPFLAGS_DEFAULT | Py_TPFLAGS_HAVE_GC | Py_TPFLAGS_IMMUTABLETYPE |
             Py_TPFLAGS_DISALLOW_INSTANTIATION,
    .slots = reader_slots,
};

static PyStructSequence_Field section_fields[] = {
    {"cid", "the name"},
    {"block", "the bytes"},
    {"verdict", "what is said of them, in the words of dagcar check"},
    {NULL, NULL},
};

PyStructSequence_Desc section_desc = {
    .name = "dagcbor.Section",
    .doc = "A section of a CAR file: a name, a block, and the verdict on them.",
    .fields = section_fields,
    .n_in_sequence = 3,
};

/* A whole file */

/* How often each verdict was given. */
static PyObject *count_verdicts(const Check *check) {
    PyObject *counts = PyDict_New();
    for (int at = 0; counts && at < VERDICTS; at++) {
        /* First the kinds and `not read`, then the refusals. */
        int32_t code = at <= DAGCBOR_NOT_READ ? at : DAGCBOR_NOT_READ - at;
        uint64_t times = check->verdicts[code - DAGCBOR_NOT_VERIFIED];
        if (!times) continue;
        PyObject *verdict = verdict_of(code), *count = PyLong_FromUnsignedLongLong(times);
        if (!verdict || !count || PyDict_SetItem(counts, verdict, count) < 0) Py_CLEAR(counts);
        Py_XDECREF(verdict);
        Py_XDECREF(count);
    }
    return counts;
}

static PyObject *pack_names(const Names *names, bool are_held) {
    PyObject *packed = PyBytes_FromStringAndSize(NULL, (Py_ssize_t)names_pack(names, are_held, NULL));
    if (packed) names_pack(names, are_held, (uint8_t *)PyBytes_AsString(packed));
    return packed;
}

/* The names that are wanted and not held, in their order. */
static PyObject *list_missing(State *state, const Names *names) {
    PyObject *packed = pack_names(names, false);
    PyObject *missing = packed ? unpack(state, bytes_of(packed), length_of(packed)) : NULL;
    Py_XDECREF(packed);
    if (missing && PyList_Sort(missing) < 0) Py_CLEAR(missing);
    return missing;
}

/* What was found as far as the file was read, and the error there or None. */
static PyObject *found_in(State *state, Check *check, PyObject *roots, PyObject *error) {
    PyObject *held = pack_names(&check->names, true);
    if (!held) return NULL;
    bool has_memory;
    Py_BEGIN_ALLOW_THREADS
    has_memory = check_inside(check);
    Py_END_ALLOW_THREADS
    PyObject *counts = has_memory ? count_verdicts(check) : no_memory();
    PyObject *missing = counts ? list_missing(state, &check->names) : NULL, *found = NULL;
    if (missing) found = PyTuple_Pack(5, roots, counts, missing, held, error);
    Py_XDECREF(missing);
    Py_XDECREF(counts);
    Py_DECREF(held);
    return found;
}

/* Why the walk over the sections stopped; CAR_FAILED if an error is raised. */
static int32_t check_all(Source *source, Check *check) {
    for (;;) {
        PyThreadState *held = check->car.is_digest ? NULL : PyEval_SaveThread();
        int32_t code = check_sections(check, SLICE);
        if (held) PyEval_RestoreThread(held);
        if (code == DAGCBOR_CAR_MORE && refill(source, &check->car) < 0) return CAR_FAILED;
        if (code == 0 && PyErr_CheckSignals() < 0) return CAR_FAILED;
        if (code != 0 && code != DAGCBOR_CAR_MORE) return code;
    }
}

static PyObject *checked(State *state, Source *source, Check *check) {
    PyObject *roots = take_roots(state, source, &check->car), *error = NULL, *found = NULL;
    if (!roots) return NULL;
    int32_t code = CAR_NO_MEMORY;
    if (names_want(&check->names, check->car.roots.start, check->car.roots.used))
        code = check_all(source, check);
    if (code == DAGCBOR_CAR_END) error = Py_NewRef(Py_None);
    else error = error_in(state, &check->car, code);
    if (error) found = found_in(state, check, roots, error);
    Py_XDECREF(error);
    Py_DECREF(roots);
    return found;
}

PyObject *check_car(PyObject *module, PyObject *args) {
    State *state = PyModule_GetState(module);
    Source source;
    Check check;
    PyObject *given, *sha256, *found = NULL;
    if (!PyArg_ParseTuple(args, "OO", &given, &sha256)) return NULL;
    if (!check_start(&check)) return PyErr_SetFromErrno(PyExc_OSError);
    if (source_open(&source, &check.car, given, sha256) == 0)
        found = checked(state, &source, &check);
    source_free(&source);
    check_free(&check);
    return found;
}

/* The verdict on a block under a name. The lock is let go meanwhile. */
PyObject *verdict_on(PyObject *module, PyObject *args) {
    State *state = PyModule_GetState(module);
    PyObject *cid, *given;
    int32_t code;
    if (!PyArg_ParseTuple(args, "O!O", state->cid, &cid, &given)) return NULL;
    PyObject *block = to_bytes(given), *name = ((Cid *)cid)->bytes;
    if (!block) return NULL;
    Py_BEGIN_ALLOW_THREADS
    code = dagcbor_verify(bytes_of(name), length_of(name), bytes_of(block), length_of(block));
    Py_END_ALLOW_THREADS
    Py_DECREF(block);
    return verdict_of(code);
}
