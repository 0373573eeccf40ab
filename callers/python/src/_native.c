/* The library for Python, by the limited API: it makes objects from the tokens of a block, and a
   block from objects, which the library judges.

   A call reads a `bytes`, which nobody writes. Any other buffer, which other threads and programs
   may write meanwhile, or which is of a subclass, is copied into one first. The interpreter's lock
   is let go while `check` judges a big block, and while one is hashed. */
#include "native.h"

#include "car.h"
#include "writer.h"

enum {
    FEW_TOKENS = 128,      /* have room on the stack */
    MANY_TOKENS = 1 << 20, /* from here on they are counted before room is taken */
    FEW_LINK_BYTES = 1024,
    SHORT_BLOCK = 512, /* in bytes */
    KNOWN_KEYS = 32,
    KNOWN_LENGTH = 64
};

PyObject *to_bytes(PyObject *given) {
    Py_buffer view;
    if (PyBytes_CheckExact(given)) return Py_NewRef(given);
    if (PyObject_GetBuffer(given, &view, PyBUF_SIMPLE) < 0) return NULL;
    PyObject *bytes = PyBytes_FromStringAndSize(view.buf, view.len);
    PyBuffer_Release(&view);
    return bytes;
}

/* True if it is a CID of another library, such as that of `multiformats`. */
static bool is_foreign_cid(PyObject *given) {
    return PyObject_HasAttrString(given, "__bytes__") && PyObject_HasAttrString(given, "version") &&
           PyObject_HasAttrString(given, "codec") && PyObject_HasAttrString(given, "hashfun");
}

PyObject *new_error(PyObject *type, PyObject *said, const char *kind, PyObject *place) {
    PyObject *error = said && place ? PyObject_CallFunction(type, "OzO", said, kind, place) : NULL;
    Py_XDECREF(said);
    Py_XDECREF(place);
    return error;
}

void *raise_error(PyObject *error) {
    if (error) PyErr_SetObject((PyObject *)Py_TYPE(error), error);
    Py_XDECREF(error);
    return NULL;
}

/* The error for a number of the library. It takes the reference to the place. */
static PyObject *error_of(State *state, int32_t code, PyObject *place) {
    PyObject *said = place ? PyUnicode_FromString(reason_of_code(code)) : NULL;
    return new_error(state->error, said, dagcbor_name_of_code(code), place);
}

static void *refuse(State *state, int32_t code) {
    return raise_error(error_of(state, code, Py_NewRef(Py_None)));
}

static void *refuse_at(State *state, int32_t code, size_t place) {
    return raise_error(error_of(state, code, PyLong_FromSize_t(place)));
}

/* The same for a block, in which the place is found. */
static void *refuse_block(State *state, int32_t code, PyObject *block) {
    size_t needed, place;
    dagcbor_tokens(bytes_of(block), length_of(block), dagcbor_tape_into(NULL, 0), 0, &needed,
                   &place);
    return refuse_at(state, code, place);
}

static PyObject *refusal(PyObject *module, PyObject *args) {
    int code;
    PyObject *place = Py_None;
    if (!PyArg_ParseTuple(args, "i|O", &code, &place)) return NULL;
    return error_of(PyModule_GetState(module), code, Py_NewRef(place));
}

/* CIDs */

PyObject *new_cid(PyTypeObject *type, const uint8_t *bytes, size_t length) {
    PyObject *held = PyBytes_FromStringAndSize((const char *)bytes, (Py_ssize_t)length);
    Cid *cid = held ? PyObject_New(Cid, type) : NULL;
    if (cid) cid->bytes = held;
    else Py_XDECREF(held);
    return (PyObject *)cid;
}

static void cid_dealloc(PyObject *self) {
    PyTypeObject *type = Py_TYPE(self);
    Py_DECREF(((Cid *)self)->bytes);
    PyObject_Free(self);
    Py_DECREF(type);
}

static PyObject *cid_from_text(PyTypeObject *type, PyObject *given) {
    uint8_t cid[DAGCBOR_CID_MOST];
    size_t needed;
    Py_ssize_t length;
    const char *text = PyUnicode_AsUTF8AndSize(given, &length);
    if (!text) return NULL;
    int32_t code =
        dagcbor_cid_from_text((const uint8_t *)text, (size_t)length, cid, sizeof cid, &needed);
    if (code < 0) return refuse(PyType_GetModuleState(type), code);
    return new_cid(type, cid, needed);
}

/* True if the bytes are a CID: only if they have a text, which is not needed itself. */
static bool are_cid(const uint8_t *bytes, size_t length) {
    uint8_t text[DAGCBOR_CID_TEXT_MOST];
    size_t needed;
    return dagcbor_cid_text(bytes, length, text, sizeof text, &needed) == 0;
}

/* Makes a CID of bytes that should be one. */
static PyObject *judged_cid(PyTypeObject *type, const uint8_t *bytes, size_t length) {
    if (are_cid(bytes, length)) return new_cid(type, bytes, length);
    return refuse(PyType_GetModuleState(type), DAGCBOR_INVALID_CID);
}

static PyObject *cid_from_bytes(PyTypeObject *type, PyObject *given) {
    bool is_foreign = !PyObject_CheckBuffer(given) && is_foreign_cid(given);
    PyObject *bytes = is_foreign ? PyObject_Bytes(given) : to_bytes(given);
    PyObject *cid = bytes ? judged_cid(type, bytes_of(bytes), length_of(bytes)) : NULL;
    Py_XDECREF(bytes);
    return cid;
}

/* CID.of(codec, hash_code, digest) */
static PyObject *cid_of(PyObject *type, PyObject *args) {
    uint8_t bytes[4 * 10 + 64];
    PyObject *codec, *hash_code, *digest;
    if (!PyArg_ParseTuple(args, "O!O!S:of", &PyLong_Type, &codec, &PyLong_Type, &hash_code, &digest))
        return NULL;
    size_t length = length_of(digest), at = 0;
    uint64_t numbers[] = {1, PyLong_AsUnsignedLongLong(codec), 0, length};
    if (!PyErr_Occurred()) numbers[2] = PyLong_AsUnsignedLongLong(hash_code);
    if (PyErr_Occurred()) return NULL;
    for (int i = 0; i < 4; i++) at += put_length(bytes + at, numbers[i]);
    if (length <= 64) memcpy(bytes + at, bytes_of(digest), length);
    return judged_cid((PyTypeObject *)type, bytes, length <= 64 ? at + length : 0);
}

/* The parts of a CID: its version, codec, hash function and the length of its digest, and where that
   begins. Version 0 is a bare SHA-256 of DAG-PB. */
typedef struct {
    uint64_t numbers[4];
    size_t digest;
} CidParts;

static CidParts cid_parts(PyObject *self) {
    const uint8_t *bytes = bytes_of(((Cid *)self)->bytes);
    if (bytes[0] == 0x12) return (CidParts){{0, 0x70, 0x12, 32}, 2};
    CidParts parts = {{0}, 0};
    for (int i = 0; i < 4; i++)
        for (int by = 0, more = 128; more; by += 7) {
            uint8_t byte = bytes[parts.digest++];
            parts.numbers[i] |= (uint64_t)(byte & 127) << by;
            more = byte & 128;
        }
    return parts;
}

static PyObject *cid_number(PyObject *self, void *which) {
    return PyLong_FromUnsignedLongLong(cid_parts(self).numbers[(size_t)which]);
}

static PyObject *cid_digest(PyObject *self, void *unused) {
    (void)unused;
    PyObject *bytes = ((Cid *)self)->bytes;
    CidParts parts = cid_parts(self);
    return PyBytes_FromStringAndSize((const char *)bytes_of(bytes) + parts.digest,
                                     (Py_ssize_t)parts.numbers[3]);
}

static PyObject *cid_new(PyTypeObject *type, PyObject *args, PyObject *named) {
    static char *names[] = {"", NULL};
    PyObject *given;
    if (!PyArg_ParseTupleAndKeywords(args, named, "O:CID", names, &given)) return NULL;
    if (Py_TYPE(given) == type) return Py_NewRef(given);
    return PyUnicode_Check(given) ? cid_from_text(type, given) : cid_from_bytes(type, given);
}

static PyObject *cid_str(PyObject *self) {
    PyObject *bytes = ((Cid *)self)->bytes;
    uint8_t text[DAGCBOR_CID_TEXT_MOST];
    size_t length;
    dagcbor_cid_text(bytes_of(bytes), length_of(bytes), text, sizeof text, &length);
    return PyUnicode_FromStringAndSize((const char *)text, (Py_ssize_t)length);
}

static PyObject *cid_repr(PyObject *self) {
    PyObject *text = cid_str(self), *repr = text ? PyUnicode_FromFormat("CID(%R)", text) : NULL;
    Py_XDECREF(text);
    return repr;
}

static PyObject *cid_bytes(PyObject *self, PyObject *unused) {
    (void)unused;
    return Py_NewRef(((Cid *)self)->bytes);
}

static PyObject *cid_reduce(PyObject *self, PyObject *unused) {
    (void)unused;
    return Py_BuildValue("O(O)", Py_TYPE(self), ((Cid *)self)->bytes);
}

static Py_hash_t cid_hash(PyObject *self) { return PyObject_Hash(((Cid *)self)->bytes); }

static PyObject *cid_compare(PyObject *self, PyObject *other, int how) {
    if (!Py_IS_TYPE(other, Py_TYPE(self))) return Py_NewRef(Py_NotImplemented);
    return PyObject_RichCompare(((Cid *)self)->bytes, ((Cid *)other)->bytes, how);
}

static PyGetSetDef cid_getters[] = {
    {"version", cid_number, NULL, "0 or 1", (void *)0},
    {"codec", cid_number, NULL, "the codec of the block: 0x71 is DAG-CBOR", (void *)1},
    {"hash_code", cid_number, NULL, "the hash function: 0x12 is SHA-256", (void *)2},
    {"digest", cid_digest, NULL, "the digest, without its length", NULL},
    {NULL, NULL, NULL, NULL, NULL},
};

static PyMethodDef cid_methods[] = {
    {"of", cid_of, METH_VARARGS | METH_CLASS,
     "of(codec, hash_code, digest): that of version 1, with at most 64 bytes of digest."},
    {"__bytes__", cid_bytes, METH_NOARGS, "The binary form."},
    {"__reduce__", cid_reduce, METH_NOARGS, NULL},
    {NULL, NULL, 0, NULL},
};

static PyType_Slot cid_slots[] = {
    {Py_tp_doc,
     "CID(value): a CID, of its binary form, or of its text: Qm.. of version 0, and of version 1\n"
     "behind b, B, z or f; or of another library's CID, which has __bytes__, version, codec and\n"
     "hashfun.\n\n"
     "bytes(cid) is its binary form, and str(cid) its text. CIDs compare as their bytes."},
    {Py_tp_new, cid_new},
    {Py_tp_dealloc, cid_dealloc},
    {Py_tp_str, cid_str},
    {Py_tp_repr, cid_repr},
    {Py_tp_hash, cid_hash},
    {Py_tp_richcompare, cid_compare},
    {Py_tp_methods, cid_methods},
    {Py_tp_getset, cid_getters},
    {0, NULL},
};

static PyType_Spec cid_spec = {
    .name = "dagcbor.CID",
    .basicsize = sizeof(Cid),
    .flags = Py_TPFLAGS_DEFAULT | Py_TPFLAGS_IMMUTABLETYPE,
    .slots = cid_slots,
};

/* Objects out of tokens */

/* A key that was read, and where it stands in the block. */
typedef struct {
    const char *text;
    size_t length;
    PyObject *key;
} Known;

typedef struct {
    const State *state;
    const char *block;
    const dagcbor_token *next;
    Known *known; /* lists of records have few keys, many times; NULL for a short block */
} Reader;

static PyObject *next_value(Reader *reader);

static PyObject *next_list(Reader *reader, Py_ssize_t count) {
    PyObject *list = PyList_New(count);
    for (Py_ssize_t i = 0; list && i < count; i++) {
        PyObject *item = next_value(reader);
        if (!item || PyList_SetItem(list, i, item) < 0) Py_CLEAR(list);
    }
    return list;
}

static PyObject *next_key(Reader *reader) {
    const dagcbor_token *token = reader->next;
    const char *text = reader->block + token->place;
    size_t length = token->number;
    if (!reader->known || length == 0 || length > KNOWN_LENGTH) return next_value(reader);
    size_t mix = 7 * length + 31 * (uint8_t)text[0] + (uint8_t)text[length - 1];
    Known *known = &reader->known[mix % KNOWN_KEYS];
    if (known->key && known->length == length && memcmp(known->text, text, length) == 0) {
        reader->next++;
        return Py_NewRef(known->key);
    }
    PyObject *key = next_value(reader);
    if (!key) return NULL;
    Py_XDECREF(known->key);
    *known = (Known){text, length, Py_NewRef(key)};
    return key;
}

static PyObject *next_map(Reader *reader, Py_ssize_t count) {
    PyObject *map = PyDict_New();
    for (; map && count > 0; count--) {
        PyObject *key = next_key(reader), *value = key ? next_value(reader) : NULL;
        if (!value || PyDict_SetItem(map, key, value) < 0) Py_CLEAR(map);
        Py_XDECREF(key);
        Py_XDECREF(value);
    }
    return map;
}

/* -1 - n */
static PyObject *negative(uint64_t n) {
    if (n <= INT64_MAX) return PyLong_FromLongLong(-1 - (int64_t)n);
    PyObject *number = PyLong_FromUnsignedLongLong(n),
             *inverse = number ? PyNumber_Invert(number) : NULL;
    Py_XDECREF(number);
    return inverse;
}

/* Takes the value's tokens. They are those of a block: no more follow than there are, payloads are
   in it, and no list or map is in 128 others. */
static PyObject *next_value(Reader *reader) {
    const dagcbor_token token = *reader->next++;
    const char *payload = reader->block + token.place;
    Py_ssize_t count = (Py_ssize_t)token.number;
    switch (token.kind) {
    case DAGCBOR_BOOL: return PyBool_FromLong((long)token.number);
    case DAGCBOR_INTEGER: return PyLong_FromUnsignedLongLong(token.number);
    case DAGCBOR_NEGATIVE: return negative(token.number);
    case DAGCBOR_STRING: return PyUnicode_FromStringAndSize(payload, count);
    case DAGCBOR_BYTES: return PyBytes_FromStringAndSize(payload, count);
    case DAGCBOR_LINK: return new_cid(reader->state->cid, (const uint8_t *)payload, token.number);
    case DAGCBOR_LIST: return next_list(reader, count);
    case DAGCBOR_MAP: return next_map(reader, count);
    default: return Py_NewRef(Py_None);
    }
}

/* The value of a block's tokens. */
static PyObject *value_of(const State *state, const char *block, size_t length,
                          const dagcbor_token *tape) {
    Known known[KNOWN_KEYS];
    Reader reader = {state, block, tape, NULL};
    if (length < SHORT_BLOCK) return next_value(&reader);
    memset(known, 0, sizeof known);
    reader.known = known;
    PyObject *value = next_value(&reader);
    for (int i = 0; i < KNOWN_KEYS; i++) Py_XDECREF(known[i].key);
    return value;
}

/* Room for this many tokens, or NULL with an error raised. */
static dagcbor_token *room_for(size_t tokens) {
    if (tokens > PY_SSIZE_T_MAX / sizeof(dagcbor_token)) return no_memory();
    dagcbor_token *room = PyMem_Malloc(tokens * sizeof *room);
    return room ? room : no_memory();
}

/* The value of the item from an offset on. It also finds where the item ends, if others may follow.
 */
static PyObject *read_value(State *state, PyObject *block, size_t start, size_t *end) {
    dagcbor_token few[FEW_TOKENS], *tape = few;
    const uint8_t *bytes = bytes_of(block) + start;
    size_t length = length_of(block) - start, needed = length, place = 0;
    PyObject *value = NULL;
    int32_t code = 0;
    if (end || length <= FEW_TOKENS || length > MANY_TOKENS)
        code = dagcbor_tokens(bytes, length, few, FEW_TOKENS, &needed, &place);
    if (needed > FEW_TOKENS && (code >= 0 || (end && code == DAGCBOR_TRAILING_DATA))) {
        if (!(tape = room_for(needed))) return NULL;
        code = dagcbor_tokens(bytes, length, tape, needed, &needed, &place);
    }
    if (code < 0 && !(end && code == DAGCBOR_TRAILING_DATA))
        refuse_at(state, code, start + place);
    else value = value_of(state, (const char *)bytes, place, tape);
    if (end) *end = start + place;
    if (tape != few) PyMem_Free(tape);
    return value;
}

static PyObject *loads_bytes(State *state, PyObject *block) {
    return read_value(state, block, 0, NULL);
}

/* A block out of objects */

/* A step to a part: the key, or none and an index. */
typedef struct {
    PyObject *key;
    Py_ssize_t index;
} Step;

typedef struct {
    State *state;
    Room block;
    PyObject *replace; /* what `default` is, or NULL */
    Room entries; /* of the maps that are being written */
    Step path[MOST_LEVELS];
    int level;
} Writer;

/* Raises the error for a value that has no block. */
static int refuse_value(Writer *writer, const char *kind, const char *said, PyObject *value) {
    PyObject *type = NULL, *message = NULL, *place = PyTuple_New(writer->level);
    for (int i = 0; place && i < writer->level; i++) {
        Step step = writer->path[i];
        PyObject *part = step.key ? Py_NewRef(step.key) : PyLong_FromSsize_t(step.index);
        if (part) PyTuple_SetItem(place, i, part);
        else Py_CLEAR(place);
    }
    if (place) type = PyType_GetName(Py_TYPE(value));
    if (type) message = PyUnicode_FromFormat("%U: %s", type, said);
    raise_error(new_error(writer->state->error, message, kind, place));
    Py_XDECREF(type);
    return -1;
}

static int raise_unless(bool has_memory) { return has_memory ? 0 : (PyErr_NoMemory(), -1); }

static int add_head(Writer *writer, uint64_t kind, uint64_t number) {
    return raise_unless(put_head(&writer->block, kind, number));
}

static int add_payload(Writer *writer, uint64_t kind, const void *bytes, size_t length) {
    return raise_unless(put_payload(&writer->block, kind, bytes, length));
}

static int add_bytes(Writer *writer, uint64_t kind, PyObject *bytes) {
    return add_payload(writer, kind, bytes_of(bytes), length_of(bytes));
}

static int add_buffer(Writer *writer, PyObject *given) {
    PyObject *bytes = to_bytes(given);
    int done = bytes ? add_bytes(writer, DAGCBOR_BYTES, bytes) : -1;
    Py_XDECREF(bytes);
    return done;
}

/* The text's UTF-8, which the object holds; NULL with an error raised if it has none. */
static const char *utf8_of(Writer *writer, PyObject *text, size_t *length) {
    Py_ssize_t count;
    const char *bytes = PyUnicode_AsUTF8AndSize(text, &count);
    if (bytes) return *length = (size_t)count, bytes;
    if (PyErr_ExceptionMatches(PyExc_UnicodeError)) {
        PyErr_Clear();
        refuse_value(writer, "RequireUtf8", "a surrogate, which has no UTF-8", text);
    }
    return NULL;
}

static int add_text(Writer *writer, PyObject *text) {
    size_t length;
    const char *bytes = utf8_of(writer, text, &length);
    return bytes ? add_payload(writer, DAGCBOR_STRING, bytes, length) : -1;
}

/* Adds an integer that is not an int64_t. Methods of a subclass are not called. */
static int add_long_integer(Writer *writer, PyObject *given, bool is_negative) {
    unaryfunc invert = (unaryfunc)PyType_GetSlot(&PyLong_Type, Py_nb_invert);
    PyObject *number = is_negative ? invert(given) : Py_NewRef(given);
    if (!number) return -1;
    unsigned long long n = PyLong_AsUnsignedLongLong(number);
    Py_DECREF(number);
    if (!PyErr_Occurred())
        return add_head(writer, is_negative ? DAGCBOR_NEGATIVE : DAGCBOR_INTEGER, n);
    if (!PyErr_ExceptionMatches(PyExc_OverflowError)) return -1;
    PyErr_Clear();
    return refuse_value(writer, "CastOverflow", "not in -2 ** 64 .. 2 ** 64 - 1", given);
}

static int add_integer(Writer *writer, PyObject *given) {
    int beyond;
    long long n = PyLong_AsLongLongAndOverflow(given, &beyond);
    if (beyond) return add_long_integer(writer, given, beyond < 0);
    if (n == -1 && PyErr_Occurred()) return -1;
    return n < 0 ? add_head(writer, DAGCBOR_NEGATIVE, (uint64_t)(-1 - n))
                 : add_head(writer, DAGCBOR_INTEGER, (uint64_t)n);
}

static int add_value(Writer *writer, PyObject *value);

/* The part of a list or map, which it may lose meanwhile. */
static int add_part(Writer *writer, Step step, PyObject *part) {
    writer->path[writer->level++] = step;
    Py_INCREF(part);
    int done = add_value(writer, part);
    Py_DECREF(part);
    writer->level--;
    return done;
}

/* True if a list or map of this many parts has them in more lists and maps than a block may have.
 */
static bool is_too_deep(const Writer *writer, Py_ssize_t count) {
    return writer->level == MOST_LEVELS - 1 && count > 0;
}

/* Adds a list, or a tuple as one. */
static int add_list(Writer *writer, PyObject *list) {
    bool is_tuple = PyTuple_Check(list);
    Py_ssize_t count = is_tuple ? PyTuple_Size(list) : PyList_Size(list);
    if (is_too_deep(writer, count)) return refuse_value(writer, "DepthOverflow", "too deep", list);
    if (add_head(writer, DAGCBOR_LIST, (uint64_t)count) < 0) return -1;
    for (Py_ssize_t i = 0; i < count; i++) {
        if (!is_tuple && PyList_Size(list) != count)
            return PyErr_SetString(PyExc_RuntimeError, "list changed size during dumps"), -1;
        PyObject *part = is_tuple ? PyTuple_GetItem(list, i) : PyList_GetItem(list, i);
        if (add_part(writer, (Step){NULL, i}, part) < 0) return -1;
    }
    return 0;
}

/* Holds the entries of a map, in its own order. Those held count even if an error is raised. */
static int hold_entries(Writer *writer, PyObject *map, Py_ssize_t *held) {
    PyObject *key, *value;
    Py_ssize_t at = 0;
    while (PyDict_Next(map, &at, &key, &value)) {
        Entry *entry = room_take(&writer->entries, sizeof *entry);
        if (!entry) return raise_unless(false);
        *entry = (Entry){NULL, 0, Py_NewRef(key), Py_NewRef(value)};
        ++*held; /* first: what makes an error may run code that takes the key out of the map */
        if (!PyUnicode_Check(key)) return refuse_value(writer, "Mismatch", "a key that is no str", key);
        entry->text = utf8_of(writer, key, &entry->length);
        if (!entry->text) return -1;
    }
    return 0;
}

static int add_entries(Writer *writer, size_t start, Py_ssize_t count) {
    sort_entries((Entry *)(writer->entries.start + start), (size_t)count);
    if (add_head(writer, DAGCBOR_MAP, (uint64_t)count) < 0) return -1;
    for (Py_ssize_t i = 0; i < count; i++) {
        /* What follows may move them. */
        const Entry *all = (Entry *)(writer->entries.start + start), entry = all[i];
        if (i > 0 && compare_entries(&all[i - 1], &entry) == 0)
            return refuse_value(writer, "UnorderedKey", "a key that stands twice", entry.key);
        if (add_payload(writer, DAGCBOR_STRING, entry.text, entry.length) < 0) return -1;
        if (add_part(writer, (Step){entry.key, 0}, entry.value) < 0) return -1;
    }
    return 0;
}

static int add_map(Writer *writer, PyObject *map) {
    size_t start = writer->entries.used;
    Py_ssize_t held = 0;
    if (is_too_deep(writer, PyDict_Size(map)))
        return refuse_value(writer, "DepthOverflow", "too deep", map);
    int done = hold_entries(writer, map, &held);
    if (done == 0) done = add_entries(writer, start, held);
    for (Py_ssize_t i = 0; i < held; i++) {
        Entry entry = ((Entry *)(writer->entries.start + start))[i];
        Py_DECREF((PyObject *)entry.key);
        Py_DECREF((PyObject *)entry.value);
    }
    writer->entries.used = start;
    return done;
}

/* Adds a CID of another library, if it is one. */
static int add_foreign_cid(Writer *writer, PyObject *given) {
    PyObject *bytes = PyObject_Bytes(given);
    int done = -1;
    if (!bytes) return -1;
    if (!are_cid(bytes_of(bytes), length_of(bytes)))
        refuse_value(writer, "InvalidCid", "its bytes are not a CID", given);
    else done = add_bytes(writer, DAGCBOR_LINK, bytes);
    Py_DECREF(bytes);
    return done;
}

/* Adds what `default` gives for the value. */
static int add_replaced(Writer *writer, PyObject *value) {
    if (Py_EnterRecursiveCall(" in dumps' default")) return -1;
    PyObject *given = PyObject_CallFunctionObjArgs(writer->replace, value, NULL);
    int done = given ? add_value(writer, given) : -1;
    Py_XDECREF(given);
    Py_LeaveRecursiveCall();
    return done;
}

static int add_value(Writer *writer, PyObject *value) {
    if (PyUnicode_Check(value)) return add_text(writer, value);
    if (Py_IsTrue(value) || Py_IsFalse(value))
        return add_head(writer, DAGCBOR_BOOL, Py_IsTrue(value));
    if (PyLong_Check(value)) return add_integer(writer, value);
    if (Py_IsNone(value)) return add_head(writer, DAGCBOR_NULL, 0);
    if (PyDict_Check(value)) return add_map(writer, value);
    if (PyList_Check(value) || PyTuple_Check(value)) return add_list(writer, value);
    if (PyBytes_Check(value)) return add_bytes(writer, DAGCBOR_BYTES, value);
    if (Py_IS_TYPE(value, writer->state->cid))
        return add_bytes(writer, DAGCBOR_LINK, ((Cid *)value)->bytes);
    if (PyByteArray_Check(value) || PyObject_TypeCheck(value, &PyMemoryView_Type))
        return add_buffer(writer, value);
    if (!PyFloat_Check(value) && is_foreign_cid(value)) return add_foreign_cid(writer, value);
    if (writer->replace) return add_replaced(writer, value);
    return refuse_value(writer, "Unsupported",
                        PyFloat_Check(value)
                            ? "floats are left out of these blocks"
                            : "not None, bool, int, str, bytes, list, tuple, dict or CID, which "
                              "dumps(default=..) may make of it",
                        value);
}

/* What was written, which is a block. */
static PyObject *written(Writer *writer) {
    const Room *block = &writer->block;
    int32_t code = dagcbor_check((const uint8_t *)block->start, block->used);
    if (code < 0) return refuse(writer->state, code);
    return PyBytes_FromStringAndSize(block->start, (Py_ssize_t)block->used);
}

static PyObject *dumps(PyObject *module, PyObject *const *args, Py_ssize_t count, PyObject *names) {
    Writer writer;
    Py_ssize_t named = names ? PyTuple_Size(names) : 0;
    bool is_default = named == 1 && PyUnicode_CompareWithASCIIString(PyTuple_GetItem(names, 0),
                                                                     "default") == 0;
    if (count != 1 || named != (Py_ssize_t)is_default)
        return PyErr_SetString(PyExc_TypeError, "it is dumps(value, *, default=None)"), NULL;
    writer.state = PyModule_GetState(module);
    writer.replace = is_default && !Py_IsNone(args[1]) ? args[1] : NULL;
    writer.level = 0;
    room_start(&writer.block);
    room_start(&writer.entries);
    PyObject *block = add_value(&writer, args[0]) < 0 ? NULL : written(&writer);
    room_free(&writer.block);
    room_free(&writer.entries);
    return block;
}

/* The other calls */

typedef PyObject *Call(State *state, PyObject *block);

/* What the call returns for a `bytes` and the other arguments. */
static PyObject *of_bytes(PyObject *module, PyObject *given, Call *call) {
    PyObject *bytes = to_bytes(given);
    PyObject *answer = bytes ? call(PyModule_GetState(module), bytes) : NULL;
    Py_XDECREF(bytes);
    return answer;
}

/* A function of the module that is such a call. */
#define OF_BYTES(name, call)                                    \
    static PyObject *name(PyObject *module, PyObject *given) { \
        return of_bytes(module, given, call);                  \
    }

static PyObject *as_bytes(PyObject *module, PyObject *given) {
    (void)module;
    return to_bytes(given);
}

OF_BYTES(loads, loads_bytes)

static PyObject *loads_first(PyObject *module, PyObject *args, PyObject *named) {
    static char *names[] = {"", "start", NULL};
    PyObject *given, *value = NULL;
    Py_ssize_t start = 0;
    size_t end;
    if (!PyArg_ParseTupleAndKeywords(args, named, "O|n:loads_first", names, &given, &start))
        return NULL;
    PyObject *block = to_bytes(given);
    if (!block) return NULL;
    if (start < 0 || start > PyBytes_Size(block))
        PyErr_SetString(PyExc_IndexError, "start is outside the bytes");
    else value = read_value(PyModule_GetState(module), block, (size_t)start, &end);
    Py_DECREF(block);
    return value ? Py_BuildValue("Nn", value, (Py_ssize_t)end) : NULL;
}

static PyObject *check_bytes(State *state, PyObject *block) {
    const uint8_t *bytes = bytes_of(block);
    size_t length = length_of(block);
    PyThreadState *held = length > SHORT_CALL ? PyEval_SaveThread() : NULL;
    int32_t code = dagcbor_check(bytes, length);
    if (held) PyEval_RestoreThread(held);
    if (code < 0) return refuse_block(state, code, block);
    return PyUnicode_FromString(dagcbor_name_of_code(code));
}

OF_BYTES(check, check_bytes)

/* The block and the path that a call is given: the block, and the path's text, which is `path`'s. */
static PyObject *block_and_path(PyObject *args, PyObject **path, const char **text,
                                Py_ssize_t *length) {
    PyObject *given;
    if (!PyArg_ParseTuple(args, "OU", &given, path)) return NULL;
    *text = PyUnicode_AsUTF8AndSize(*path, length);
    return *text ? to_bytes(given) : NULL;
}

/* The kind and the bytes of the last item to which a front of a path leads in a block, and what is
   left of the path. */
static PyObject *follow(PyObject *module, PyObject *args) {
    PyObject *path, *answer = NULL;
    const char *text;
    Py_ssize_t length;
    size_t places[3];
    PyObject *block = block_and_path(args, &path, &text, &length);
    if (!block) return NULL;
    int32_t code = dagcbor_follow(bytes_of(block), length_of(block), (const uint8_t *)text,
                                  (size_t)length, places);
    if (code < 0) refuse_block(PyModule_GetState(module), code, block);
    else
        answer = Py_BuildValue("sy#s#", dagcbor_name_of_code(code), bytes_of(block) + places[0],
                               (Py_ssize_t)(places[1] - places[0]), text + places[2],
                               length - (Py_ssize_t)places[2]);
    Py_DECREF(block);
    return answer;
}

/* The bytes of the part of a block's item to which a segment leads; None if it leads nowhere. */
static PyObject *part(PyObject *module, PyObject *args) {
    PyObject *segment, *answer = NULL;
    const char *text;
    Py_ssize_t length;
    size_t place, end;
    PyObject *block = block_and_path(args, &segment, &text, &length);
    if (!block) return NULL;
    int32_t code = dagcbor_part(bytes_of(block), length_of(block), (const uint8_t *)text,
                                (size_t)length, &place, &end);
    if (code >= 0)
        answer = PyBytes_FromStringAndSize((const char *)bytes_of(block) + place,
                                           (Py_ssize_t)(end - place));
    else if (code == DAGCBOR_NO_SUCH_PATH) answer = Py_NewRef(Py_None);
    else refuse_block(PyModule_GetState(module), code, block);
    Py_DECREF(block);
    return answer;
}

PyObject *unpack(State *state, const uint8_t *packed, size_t length) {
    PyObject *found = PyList_New(0);
    for (size_t at = 0; found && at < length; at += 1 + packed[at]) {
        PyObject *cid = new_cid(state->cid, packed + at + 1, packed[at]);
        if (!cid || PyList_Append(found, cid) < 0) Py_CLEAR(found);
        Py_XDECREF(cid);
    }
    return found;
}

/* True if each byte of a length has a CID of that many bytes after it. */
static bool are_packed(const uint8_t *packed, size_t length) {
    size_t at = 0;
    while (at < length && packed[at] < length - at && are_cid(packed + at + 1, packed[at]))
        at += 1 + packed[at];
    return at == length;
}

static PyObject *unpack_bytes(PyObject *module, PyObject *packed) {
    if (!PyBytes_Check(packed) || !are_packed(bytes_of(packed), length_of(packed)))
        return PyErr_SetString(PyExc_TypeError, "packed names are wanted"), NULL;
    return unpack(PyModule_GetState(module), bytes_of(packed), length_of(packed));
}

static PyObject *links_of(State *state, PyObject *block) {
    uint8_t few[FEW_LINK_BYTES], *out = few;
    size_t needed;
    int32_t code = dagcbor_links(bytes_of(block), length_of(block), few, sizeof few, &needed);
    if (code < 0) return refuse_block(state, code, block);
    if (needed > sizeof few) {
        if (!(out = PyMem_Malloc(needed))) return no_memory();
        dagcbor_links(bytes_of(block), length_of(block), out, needed, &needed);
    }
    PyObject *found = unpack(state, out, needed);
    if (out != few) PyMem_Free(out);
    return found;
}

OF_BYTES(links, links_of)

static PyObject *name_of(State *state, PyObject *block) {
    uint8_t out[36];
    const uint8_t *bytes = bytes_of(block);
    size_t length = length_of(block);
    PyThreadState *held = length > SHORT_CALL ? PyEval_SaveThread() : NULL;
    dagcbor_name(bytes, length, out);
    if (held) PyEval_RestoreThread(held);
    return new_cid(state->cid, out, sizeof out);
}

OF_BYTES(name, name_of)

/* Blocks of DAG-PB, by their data model */

typedef int32_t Convert(const uint8_t *given, size_t length, uint8_t *out, size_t room,
                        size_t *needed, size_t *place);

static int32_t to_node_at(const uint8_t *block, size_t length, uint8_t *out, size_t room,
                          size_t *needed, size_t *place) {
    *place = 0;
    return dagcbor_to_node(block, length, out, room, needed);
}

/* The bytes that the call puts; NULL with no exception, and its number, if it refuses. */
static PyObject *converted(PyObject *given, Convert *convert, int32_t *code, size_t *place) {
    size_t needed = 0;
    PyObject *out = NULL;
    do { /* what is needed is told, so twice at most */
        Py_XDECREF(out);
        out = PyBytes_FromStringAndSize(NULL, (Py_ssize_t)needed);
        if (!out) return NULL;
        PyThreadState *held = length_of(given) > SHORT_CALL ? PyEval_SaveThread() : NULL;
        *code = convert(bytes_of(given), length_of(given),
                        dagcbor_into((uint8_t *)PyBytes_AsString(out), needed), needed, &needed,
                        place);
        if (held) PyEval_RestoreThread(held);
    } while (*code == DAGCBOR_NO_ROOM);
    if (*code == 0) return out;
    Py_DECREF(out);
    return NULL;
}

/* A node's links take no more bytes, packed, than the node has. */
static PyObject *node_links_of(State *state, PyObject *node) {
    size_t length = length_of(node), needed, place;
    uint8_t *out = PyMem_Malloc(length + 1);
    if (!out) return no_memory();
    PyThreadState *held = length > SHORT_CALL ? PyEval_SaveThread() : NULL;
    int32_t code = dagcbor_node_links(bytes_of(node), length, out, length, &needed, &place);
    if (held) PyEval_RestoreThread(held);
    PyObject *found = code < 0 ? refuse_at(state, code, place) : unpack(state, out, needed);
    PyMem_Free(out);
    return found;
}

OF_BYTES(node_links, node_links_of)

static PyObject *from_node_bytes(State *state, PyObject *node) {
    int32_t code = 0;
    size_t place = 0;
    PyObject *block = converted(node, dagcbor_from_node, &code, &place);
    if (block || PyErr_Occurred()) return block;
    return code == DAGCBOR_NAME_NOT_TEXT ? refuse(state, code) : refuse_at(state, code, place);
}

OF_BYTES(from_node, from_node_bytes)

static PyObject *to_node_bytes(State *state, PyObject *block) {
    int32_t code = 0;
    size_t place = 0;
    PyObject *node = converted(block, to_node_at, &code, &place);
    if (node || PyErr_Occurred()) return node;
    bool is_no_block = code > DAGCBOR_NO_ROOM;
    return is_no_block ? refuse_block(state, code, block) : refuse(state, code);
}

OF_BYTES(to_node, to_node_bytes)

/* The module */

static PyMethodDef methods[] = {
    {"loads", loads, METH_O, "loads(block): the data of a block."},
    {"loads_first", (PyCFunction)(void (*)(void))loads_first, METH_VARARGS | METH_KEYWORDS,
     "loads_first(bytes, start=0): the data of the first item from there on, and the offset behind "
     "it."},
    {"dumps", (PyCFunction)(void (*)(void))dumps, METH_FASTCALL | METH_KEYWORDS,
     "dumps(value, *, default=None): the one block of the data. Keys come in the order of blocks, "
     "whatever the dict's. What `default(it)` gives is written for what is no data."},
    {"check", check, METH_O, "check(block): the kind of a block."},
    {"follow", follow, METH_VARARGS,
     "The kind and the bytes of the last item on a path, and the path that is left."},
    {"part", part, METH_VARARGS,
     "The bytes of the part to which one segment leads, taken whole; None where it leads nowhere."},
    {"links", links, METH_O,
     "links(block): the links of the first item, in their order. What follows it is not looked "
     "at."},
    {"name", name, METH_O,
     "name(block): the CID of any bytes as a block: version 1, DAG-CBOR, SHA-256."},
    {"node_links", node_links, METH_O, "The links of a block of DAG-PB, in their order."},
    {"from_node", from_node, METH_O, "The data model of a block of DAG-PB, as a block of DAG-CBOR."},
    {"to_node", to_node, METH_O, "The block of DAG-PB whose data model a block of DAG-CBOR has."},
    {"read_car", (PyCFunction)(void (*)(void))read_car, METH_VARARGS | METH_KEYWORDS,
     "read_car(source, *, sha256=None): the roots of a CAR file, and its sections one "
     "at a time. sha256, as that of hashlib, computes digests in the place of the library."},
    {"check_car", check_car, METH_VARARGS,
     "The roots, the verdicts' counts, what is missing, the names held, packed; and an error."},
    {"refusal", refusal, METH_VARARGS, "The error of a number of the library, and of a place."},
    {"verdict", verdict_on, METH_VARARGS, "verdict(cid, block): that on the two."},
    {"unpack", unpack_bytes, METH_O, "unpack(packed): the CIDs."},
    {"to_bytes", as_bytes, METH_O, "to_bytes(buffer): what it holds; itself, where it is `bytes`."},
    {NULL, NULL, 0, NULL},
};

/* The library's code is for these processors. */
static bool has_processor(void) {
#if defined(__x86_64__)
    __builtin_cpu_init();
    return __builtin_cpu_supports("sse4.2") && __builtin_cpu_supports("popcnt");
#else
    return true;
#endif
}

static int start(PyObject *module) {
    State *state = PyModule_GetState(module);
    if (!has_processor())
        return PyErr_SetString(PyExc_ImportError, "dagcbor wants an x86-64-v2 processor"), -1;
    PyObject *errors = PyImport_ImportModule("dagcbor._errors");
    if (!errors) return -1;
    state->error = PyObject_GetAttrString(errors, "DagCborError");
    state->car_error = PyObject_GetAttrString(errors, "CarError");
    Py_DECREF(errors);
    if (!state->error || !state->car_error) return -1;
    state->cid = (PyTypeObject *)PyType_FromModuleAndSpec(module, &cid_spec, NULL);
    if (!state->cid || PyModule_AddType(module, state->cid) < 0) return -1;
    state->car_reader = (PyTypeObject *)PyType_FromModuleAndSpec(module, &car_reader_spec, NULL);
    if (!state->car_reader || PyModule_AddType(module, state->car_reader) < 0) return -1;
    state->section = PyStructSequence_NewType(&section_desc);
    return state->section ? PyModule_AddType(module, state->section) : -1;
}

static int traverse(PyObject *module, visitproc visit, void *arg) {
    State *state = PyModule_GetState(module);
    for (size_t i = 0; i < sizeof *state / sizeof(PyObject *); i++) Py_VISIT(state->all[i]);
    return 0;
}

static int clear(PyObject *module) {
    State *state = PyModule_GetState(module);
    for (size_t i = 0; i < sizeof *state / sizeof(PyObject *); i++) Py_CLEAR(state->all[i]);
    return 0;
}

static PyModuleDef_Slot slots[] = {{Py_mod_exec, start}, {0, NULL}};

static PyModuleDef definition = {
    .m_base = PyModuleDef_HEAD_INIT,
    .m_name = "dagcbor._native",
    .m_size = sizeof(State),
    .m_methods = methods,
    .m_slots = slots,
    .m_traverse = traverse,
    .m_clear = clear,
};

PyMODINIT_FUNC PyInit__native(void) { return PyModuleDef_Init(&definition); }
