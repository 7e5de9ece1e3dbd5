/* The calls that a store makes for each key, as methods of a base of the class Replica, and the lock of all handles.
 *
 * ctypes loads the library and passes the addresses of these calls, so nothing is linked. Each method takes the lock of
 * the replica, as all others do. It keeps the GIL, since its call is short, and releases it only while it waits for
 * the lock. A signal handler runs before or after a call of the library, or while its method waits.
 */
#define PY_SSIZE_T_CLEAN
#include <Python.h>

#include "antientropy.h"

#define ROW_ROOM 4096

typedef __typeof__(&antientropy_put) PutCall;

/* The calls, in the order of `_versions.CALLS`. */
struct calls {
    PutCall put_read, put;
    __typeof__(&antientropy_accept) accept;
    __typeof__(&antientropy_share_read) read;
    __typeof__(&antientropy_share_get) get;
    __typeof__(&antientropy_share_count) count;
};

/* A reentrant lock like threading.RLock, whose methods take longer than a put. The GIL guards `owner` and `count`:
 * `owner` is the thread that has the lock, if `count` isn't 0. */
typedef struct {
    PyObject_HEAD
    PyThread_type_lock lock;
    unsigned long owner;
    size_t count;
} Lock;

/* A replica's handle, a struct of ctypes, and what its calls need. */
typedef struct {
    PyObject_HEAD
    struct calls calls;
    Py_buffer handle;
    Lock *lock;
    PyObject *refuse_change, *refusal;
    PyTypeObject *receipt, *version, *counts;
} Versions;

/* A version with its key, as a call takes it. */
struct input {
    Py_buffer key, value;
    uint8_t kind;
    size_t length;
    struct antientropy_pair *pairs, few[ANTIENTROPY_CLOCK_MAX];
};

/* ---- from Python's values */

static int take_word(PyObject *number, uint64_t *word)
{
    PyObject *index = PyNumber_Index(number);
    if (index == NULL)
        return -1;
    *word = PyLong_AsUnsignedLongLong(index);
    Py_DECREF(index);
    return *word == UINT64_MAX && PyErr_Occurred() ? -1 : 0;
}

/* Takes a bytes-like object without a copy, unless its bytes aren't in one piece. */
static int take_bytes(PyObject *data, Py_buffer *view)
{
    PyObject *copy;
    int status = PyObject_GetBuffer(data, view, PyBUF_SIMPLE);
    if (status == 0 || !PyErr_ExceptionMatches(PyExc_BufferError))
        return status;
    PyErr_Clear();
    copy = PyBytes_FromObject(data);
    if (copy == NULL)
        return -1;
    status = PyObject_GetBuffer(copy, view, PyBUF_SIMPLE);
    Py_DECREF(copy);
    return status;
}

/* Returns the bytes of a view: no pointer may be NULL. */
static const uint8_t *bytes_of(const Py_buffer *view)
{
    return view->buf == NULL ? (const uint8_t *)"" : view->buf;
}

static int take_pair(PyObject *item, struct antientropy_pair *pair)
{
    int status = -1;
    PyObject *two = PySequence_Fast(item, "a clock has pairs of a node and its counter");
    if (two == NULL)
        return -1;
    if (PySequence_Fast_GET_SIZE(two) != 2)
        PyErr_SetString(PyExc_ValueError, "a clock has pairs of a node and its counter");
    else if (take_word(PySequence_Fast_GET_ITEM(two, 0), &pair->node) == 0)
        status = take_word(PySequence_Fast_GET_ITEM(two, 1), &pair->counter);
    Py_DECREF(two);
    return status;
}

/* Takes the pairs of a list, which no other code uses. */
static int take_pairs(PyObject *list, struct input *to)
{
    to->length = (size_t)PyList_GET_SIZE(list);
    if (to->length > ANTIENTROPY_CLOCK_MAX) {
        to->pairs = PyMem_New(struct antientropy_pair, to->length);
        if (to->pairs == NULL) {
            PyErr_NoMemory();
            return -1;
        }
    }
    for (size_t i = 0; i < to->length; i++) {
        if (take_pair(PyList_GET_ITEM(list, (Py_ssize_t)i), &to->pairs[i]) < 0)
            return -1;
    }
    return 0;
}

/* Takes a clock: a mapping of nodes to counters, or pairs. NULL is one without pairs. */
static int take_clock(PyObject *clock, struct input *to)
{
    PyObject *list;
    int status = clock == NULL ? 0 : PyObject_IsTrue(clock);
    if (status <= 0)
        return status;
    if (PyDict_Check(clock) || PyObject_HasAttrString(clock, "items"))
        list = PyMapping_Items(clock);
    else
        list = PySequence_List(clock);
    if (list == NULL)
        return -1;
    status = take_pairs(list, to);
    Py_DECREF(list);
    return status;
}

static void drop_input(struct input *input)
{
    PyBuffer_Release(&input->key);
    PyBuffer_Release(&input->value);
    if (input->pairs != input->few)
        PyMem_Free(input->pairs);
}

/* Takes a key, a value, None for a tombstone, and a clock. The caller drops them, unless it returns -1. */
static int take_input(struct input *to, PyObject *key, PyObject *value, PyObject *clock)
{
    to->key.obj = to->value.obj = NULL;
    to->value.buf = NULL;
    to->value.len = 0;
    to->kind = value == Py_None ? ANTIENTROPY_TOMBSTONE : ANTIENTROPY_LIVE;
    to->length = 0;
    to->pairs = to->few;
    if (take_bytes(key, &to->key) == 0 && (value == Py_None || take_bytes(value, &to->value) == 0) &&
        take_clock(clock, to) == 0)
        return 0;
    drop_input(to);
    return -1;
}

/* ---- to Python's values */

/* Returns a struct of numbers as a named tuple. It can't be part of a cycle, so the collector needn't track it. */
static PyObject *numbers_of(PyTypeObject *type, const void *numbers, size_t size)
{
    const uint64_t *words = numbers;
    Py_ssize_t length = (Py_ssize_t)(size / sizeof *words);
    PyObject *made = type->tp_alloc(type, length);
    for (Py_ssize_t i = 0; made != NULL && i < length; i++) {
        PyObject *number = PyLong_FromUnsignedLongLong(words[i]);
        if (number == NULL)
            Py_CLEAR(made);
        else
            PyTuple_SET_ITEM(made, i, number);
    }
    if (made != NULL)
        PyObject_GC_UnTrack(made);
    return made;
}

static int add_pair(PyObject *clock, const struct antientropy_pair *pair)
{
    int status = -1;
    PyObject *node = PyLong_FromUnsignedLongLong(pair->node);
    PyObject *counter = PyLong_FromUnsignedLongLong(pair->counter);
    if (node != NULL && counter != NULL)
        status = PyDict_SetItem(clock, node, counter);
    Py_XDECREF(node);
    Py_XDECREF(counter);
    return status;
}

static PyObject *clock_of(const struct antientropy_pair *pairs, uint64_t length)
{
    PyObject *clock = PyDict_New();
    for (uint64_t i = 0; clock != NULL && i < length; i++) {
        if (add_pair(clock, &pairs[i]) < 0)
            Py_CLEAR(clock);
    }
    return clock;
}

static PyObject *value_of(const struct antientropy_reading *reading, const uint8_t *bytes)
{
    if (reading->kind == ANTIENTROPY_TOMBSTONE)
        Py_RETURN_NONE;
    return PyBytes_FromStringAndSize((const char *)bytes, (Py_ssize_t)reading->bytes);
}

/* Returns a version, and takes the references of its parts, which may be NULL after an exception. */
static PyObject *version_of(PyTypeObject *type, PyObject *clock, PyObject *value)
{
    PyObject *made = clock == NULL || value == NULL ? NULL : type->tp_alloc(type, 2);
    if (made == NULL) {
        Py_XDECREF(clock);
        Py_XDECREF(value);
        return NULL;
    }
    PyTuple_SET_ITEM(made, 0, clock);
    PyTuple_SET_ITEM(made, 1, value);
    return made;
}

static void refuse(Versions *self, const char *call, uint32_t number)
{
    PyObject *error = PyObject_CallFunction(self->refusal, "sI", call, (unsigned int)number);
    if (error != NULL) {
        PyErr_SetObject((PyObject *)Py_TYPE(error), error);
        Py_DECREF(error);
    }
}

/* ---- the lock */

static int is_owned(const Lock *lock)
{
    return lock->count > 0 && lock->owner == PyThread_get_thread_ident();
}

/* Waits for the lock without the GIL. Signal handlers run meanwhile, and may raise. */
static int wait_for(Lock *lock)
{
    for (;;) {
        PyLockStatus status;
        Py_BEGIN_ALLOW_THREADS
        status = PyThread_acquire_lock_timed(lock->lock, -1, 1);
        Py_END_ALLOW_THREADS
        if (status == PY_LOCK_ACQUIRED)
            return 0;
        if (PyErr_CheckSignals() < 0)
            return -1;
    }
}

static int take_lock(Lock *lock)
{
    if (!is_owned(lock)) {
        if (!PyThread_acquire_lock(lock->lock, NOWAIT_LOCK) && wait_for(lock) < 0)
            return -1;
        lock->owner = PyThread_get_thread_ident();
    }
    lock->count++;
    return 0;
}

static void give_lock(Lock *lock)
{
    if (--lock->count == 0)
        PyThread_release_lock(lock->lock);
}

static PyObject *lock_new(PyTypeObject *type, PyObject *Py_UNUSED(words), PyObject *Py_UNUSED(names))
{
    Lock *lock = (Lock *)type->tp_alloc(type, 0);
    if (lock != NULL && (lock->lock = PyThread_allocate_lock()) == NULL) {
        Py_CLEAR(lock);
        PyErr_NoMemory();
    }
    return (PyObject *)lock;
}

static void lock_dealloc(Lock *lock)
{
    if (lock->lock != NULL)
        PyThread_free_lock(lock->lock);
    Py_TYPE(lock)->tp_free(lock);
}

static PyObject *lock_enter(Lock *lock, PyObject *Py_UNUSED(none))
{
    if (take_lock(lock) < 0)
        return NULL;
    Py_RETURN_TRUE;
}

static PyObject *lock_exit(Lock *lock, PyObject *Py_UNUSED(error))
{
    if (!is_owned(lock)) {
        PyErr_SetString(PyExc_RuntimeError, "this thread doesn't have the lock");
        return NULL;
    }
    give_lock(lock);
    Py_RETURN_NONE;
}

static PyObject *lock_is_owned(Lock *lock, PyObject *Py_UNUSED(none))
{
    return PyBool_FromLong(is_owned(lock));
}

#define METHOD(name, function, flags) {name, (PyCFunction)(void (*)(void))(function), flags, NULL}

static PyMethodDef lock_methods[] = {
    METHOD("__enter__", lock_enter, METH_NOARGS),
    METHOD("__exit__", lock_exit, METH_VARARGS),
    METHOD("_is_owned", lock_is_owned, METH_NOARGS),
    {NULL, NULL, 0, NULL},
};

static PyTypeObject lock_type = {
    PyVarObject_HEAD_INIT(NULL, 0)
    .tp_name = "antientropy._native.Lock",
    .tp_basicsize = sizeof(Lock),
    .tp_flags = Py_TPFLAGS_DEFAULT,
    .tp_new = lock_new,
    .tp_dealloc = (destructor)lock_dealloc,
    .tp_methods = lock_methods,
};

static int enter(Versions *self)
{
    if (self->lock == NULL) {
        PyErr_SetString(PyExc_RuntimeError, "the replica wasn't made");
        return -1;
    }
    return take_lock(self->lock);
}

/* Takes the lock for a change, which is refused if this thread has it already. */
static int enter_to_change(Versions *self)
{
    if (self->lock != NULL && is_owned(self->lock)) {
        PyObject *result = PyObject_CallNoArgs(self->refuse_change);
        Py_XDECREF(result);
        return -1;
    }
    return enter(self);
}

static void leave(Versions *self)
{
    give_lock(self->lock);
}

/* ---- the methods */

static struct antientropy_replica *replica_of(Versions *self)
{
    return self->handle.buf;
}

static int has_words(Py_ssize_t count, Py_ssize_t least, Py_ssize_t most)
{
    if (least <= count && count <= most)
        return 1;
    PyErr_Format(PyExc_TypeError, "%zd arguments, but %zd to %zd are taken", count, least, most);
    return 0;
}

/* Puts a version: the arguments are a node, a key, a value and optionally a context. */
static PyObject *put_by(Versions *self, PutCall put, const char *name, PyObject *const *words, Py_ssize_t count)
{
    struct antientropy_receipt receipt;
    struct input in;
    uint64_t node;
    PyObject *made = NULL;
    if (!has_words(count, 3, 4) || take_word(words[0], &node) < 0 ||
        take_input(&in, words[1], words[2], count == 4 ? words[3] : NULL) < 0)
        return NULL;
    if (enter_to_change(self) == 0) {
        uint32_t number = put(replica_of(self), node, bytes_of(&in.key), (size_t)in.key.len, in.pairs, in.length,
                              in.kind, bytes_of(&in.value), (size_t)in.value.len, &receipt);
        leave(self);
        if (number != 0)
            refuse(self, name, number);
        else
            made = numbers_of(self->receipt, &receipt, sizeof receipt);
    }
    drop_input(&in);
    return made;
}

static PyObject *put_read(Versions *self, PyObject *const *words, Py_ssize_t count)
{
    return put_by(self, self->calls.put_read, "put", words, count);
}

static PyObject *put_unread(Versions *self, PyObject *const *words, Py_ssize_t count)
{
    return put_by(self, self->calls.put, "put_unread", words, count);
}

/* Accepts a version: the arguments are a key, a clock and a value. */
static PyObject *accept(Versions *self, PyObject *const *words, Py_ssize_t count)
{
    struct input in;
    uint64_t taken;
    PyObject *made = NULL;
    if (!has_words(count, 3, 3) || take_input(&in, words[0], words[2], words[1]) < 0)
        return NULL;
    if (enter_to_change(self) == 0) {
        uint32_t number = self->calls.accept(replica_of(self), bytes_of(&in.key), (size_t)in.key.len, in.pairs,
                                             in.length, in.kind, bytes_of(&in.value), (size_t)in.value.len, &taken);
        leave(self);
        if (number != 0)
            refuse(self, "accept", number);
        else
            made = PyBool_FromLong(taken != 0);
    }
    drop_input(&in);
    return made;
}

/* Returns a version of a key, or None for an unknown index, and the number of versions. The lock is taken. */
static PyObject *read_at(Versions *self, const Py_buffer *key, uint64_t index, uint64_t *versions)
{
    struct antientropy_replica share = *replica_of(self);
    struct antientropy_reading reading = {0};
    struct antientropy_pair pairs[ANTIENTROPY_CLOCK_MAX];
    uint8_t value[ANTIENTROPY_VALUE_MAX_2];
    uint32_t number = self->calls.read(&share, bytes_of(key), (size_t)key->len, index, &reading, pairs,
                                       ANTIENTROPY_CLOCK_MAX, value, sizeof value);
    *versions = reading.versions;
    if (number == ANTIENTROPY_NO_VERSION)
        Py_RETURN_NONE;
    if (number != 0) {
        refuse(self, "read", number);
        return NULL;
    }
    return version_of(self->version, clock_of(pairs, reading.pairs), value_of(&reading, value));
}

/* Returns the list of all versions of a key. The lock is taken. */
static PyObject *read_all(Versions *self, const Py_buffer *key)
{
    uint64_t versions = 1;
    PyObject *list = PyList_New(0);
    for (uint64_t index = 0; list != NULL && index < versions; index++) {
        PyObject *version = read_at(self, key, index, &versions);
        if (version == NULL || (version != Py_None && PyList_Append(list, version) < 0))
            Py_CLEAR(list);
        Py_XDECREF(version);
    }
    return list;
}

/* Returns the text of a row. The lock is taken. */
static PyObject *row_of(Versions *self, const Py_buffer *key)
{
    struct antientropy_replica share = *replica_of(self);
    char room[ROW_ROOM];
    uint64_t need;
    PyObject *text;
    uint32_t number = self->calls.get(&share, bytes_of(key), (size_t)key->len, (uint8_t *)room, sizeof room, &need);
    if (number == 0)
        return PyBytes_FromStringAndSize(room, (Py_ssize_t)need);
    if (number == ANTIENTROPY_SMALL) {
        text = PyBytes_FromStringAndSize(NULL, (Py_ssize_t)need);
        if (text == NULL)
            return NULL;
        number = self->calls.get(&share, bytes_of(key), (size_t)key->len, (uint8_t *)PyBytes_AS_STRING(text),
                                 (size_t)need, &need);
        if (number == 0)
            return text;
        Py_DECREF(text);
    }
    refuse(self, "get", number);
    return NULL;
}

/* Reads a key under the lock. */
static PyObject *read_key(Versions *self, PyObject *key, PyObject *(*read)(Versions *, const Py_buffer *))
{
    Py_buffer view;
    PyObject *result = NULL;
    if (take_bytes(key, &view) < 0)
        return NULL;
    if (enter(self) == 0) {
        result = read(self, &view);
        leave(self);
    }
    PyBuffer_Release(&view);
    return result;
}

static PyObject *get(Versions *self, PyObject *key)
{
    return read_key(self, key, read_all);
}

static PyObject *row(Versions *self, PyObject *key)
{
    return read_key(self, key, row_of);
}

static PyObject *count(Versions *self, PyObject *Py_UNUSED(none))
{
    struct antientropy_replica share;
    struct antientropy_counts counts;
    uint32_t number;
    if (enter(self) < 0)
        return NULL;
    share = *replica_of(self);
    number = self->calls.count(&share, &counts);
    leave(self);
    if (number == 0)
        return numbers_of(self->counts, &counts, sizeof counts);
    refuse(self, "count", number);
    return NULL;
}

/* ---- the type */

static int copy_calls(PyObject *addresses, struct calls *to)
{
    Py_buffer view;
    int fits;
    if (PyObject_GetBuffer(addresses, &view, PyBUF_SIMPLE) < 0)
        return -1;
    fits = view.len == sizeof *to;
    if (fits)
        memcpy(to, view.buf, sizeof *to);
    else
        PyErr_SetString(PyExc_ValueError, "the addresses are those of other calls");
    PyBuffer_Release(&view);
    return fits ? 0 : -1;
}

/* Binds a replica: the arguments are the addresses of the calls, its handle, its lock, the function that raises if a
 * signal handler would change it within a call, the one that makes a refusal, and the types of results. */
static PyObject *bind(Versions *self, PyObject *words)
{
    PyObject *addresses, *handle, *lock, *refuse_change, *refusal, *receipt, *version, *counts;
    if (self->lock != NULL) {
        PyErr_SetString(PyExc_RuntimeError, "the replica is bound already");
        return NULL;
    }
    if (!PyArg_ParseTuple(words, "OOO!OOO!O!O!", &addresses, &handle, &lock_type, &lock, &refuse_change, &refusal,
                          &PyType_Type, &receipt, &PyType_Type, &version, &PyType_Type, &counts) ||
        copy_calls(addresses, &self->calls) < 0 || PyObject_GetBuffer(handle, &self->handle, PyBUF_WRITABLE) < 0)
        return NULL;
    Py_INCREF(self->lock = (Lock *)lock);
    Py_INCREF(self->refuse_change = refuse_change);
    Py_INCREF(self->refusal = refusal);
    Py_INCREF(self->receipt = (PyTypeObject *)receipt);
    Py_INCREF(self->version = (PyTypeObject *)version);
    Py_INCREF(self->counts = (PyTypeObject *)counts);
    Py_RETURN_NONE;
}

static void dealloc(Versions *self)
{
    PyTypeObject *type = Py_TYPE(self);
    PyBuffer_Release(&self->handle);
    Py_XDECREF(self->lock);
    Py_XDECREF(self->refuse_change);
    Py_XDECREF(self->refusal);
    Py_XDECREF(self->receipt);
    Py_XDECREF(self->version);
    Py_XDECREF(self->counts);
    type->tp_free(self);
    Py_DECREF(type);
}

static PyMethodDef methods[] = {
    METHOD("_bind", bind, METH_VARARGS),
    METHOD("_put_read", put_read, METH_FASTCALL),
    METHOD("_put_unread", put_unread, METH_FASTCALL),
    METHOD("_accept", accept, METH_FASTCALL),
    METHOD("_get", get, METH_O),
    METHOD("_row", row, METH_O),
    METHOD("_count", count, METH_NOARGS),
    {NULL, NULL, 0, NULL},
};

static PyType_Slot slots[] = {{Py_tp_dealloc, dealloc}, {Py_tp_methods, methods}, {0, NULL}};

static PyType_Spec spec = {
    .name = "antientropy._native.Versions",
    .basicsize = sizeof(Versions),
    .flags = Py_TPFLAGS_DEFAULT | Py_TPFLAGS_BASETYPE,
    .slots = slots,
};

static int add_types(PyObject *module)
{
    int status = -1;
    PyObject *type = PyType_FromSpec(&spec);
    if (type != NULL && PyModule_AddType(module, &lock_type) == 0)
        status = PyModule_AddType(module, (PyTypeObject *)type);
    Py_XDECREF(type);
    return status;
}

static PyModuleDef_Slot parts[] = {{Py_mod_exec, add_types}, {0, NULL}};

static struct PyModuleDef module = {
    PyModuleDef_HEAD_INIT,
    .m_name = "antientropy._native",
    .m_slots = parts,
};

PyMODINIT_FUNC PyInit__native(void)
{
    return PyModuleDef_Init(&module);
}
