/* `Quick` of _quick.py, in C: what it does, and in which order, is said there. It decides nothing: the bay does, whose calls it is given by
   their addresses. A status that isn't expected is left to the shell, which makes the call again and raises. While it has the lab's mutex it
   runs no line of Python, so it keeps the interpreter's lock, and nobody waits for the mutex.

   And the end of `with`, `ends`: an interrupt that comes as `_ends` of _held.py begins is seen by no line of that. */
#define Py_LIMITED_API 0x03090000
#include <Python.h>
#include <stdint.h>
#include <structmember.h>

#include "labrun_bay.h"

#define NEW 11
#define MOST_SETS 8

/* what it is given of a shell */
enum { ACQUIRE, RELEASE, NOW, ASKERS, BUSY, LEFT, PARTS };

typedef struct {
    PyObject_HEAD
    unsigned long long next, done;
    char is_open;
    struct lab_bay *bay;
    uint32_t (*ask)(struct lab_bay *, const struct lab_asked *, const uint64_t *, size_t, uint64_t);
    uint32_t (*tell)(struct lab_bay *, uint64_t, struct lab_outcome *);
    uint32_t (*leave)(struct lab_bay *, uint64_t, uint64_t);
    PyObject *parts[PARTS];
} Quick;

static PyObject *quick_type, *labrun_error;
/* the names of what is read and written of whoever asks */
static PyObject *limit_, *timeout_, *kind_, *sets_, *number_, *what_, *needs_, *token_, *quick_, *ends_, *leaves_;

/* A number, and whether there is one; else an exception is set. */
static int is_number(PyObject *given, uint64_t *number) {
    if (given == NULL) return 0;
    *number = PyLong_AsUnsignedLongLong(given);
    Py_DECREF(given);
    return !(*number == UINT64_MAX && PyErr_Occurred());
}

static int reads(PyObject *it, PyObject *name, uint64_t *number) { return is_number(PyObject_GetAttr(it, name), number); }

static int writes(PyObject *it, PyObject *name, uint64_t number) {
    PyObject *made = PyLong_FromUnsignedLongLong(number);
    int is_done = made != NULL && PyObject_SetAttr(it, name, made) == 0;
    Py_XDECREF(made);
    return is_done;
}

/* The sets that it asks for: how many, or -1 with an exception, or 0 if they are too many for here. */
static Py_ssize_t sets_of(PyObject *it, uint64_t *sets) {
    PyObject *them = PyObject_GetAttr(it, sets_);
    Py_ssize_t count = them == NULL ? -1 : PyTuple_Size(them);
    if (count > MOST_SETS) count = 0;
    for (Py_ssize_t at = 0; at < count; at++) {
        PyObject *one = PyTuple_GetItem(them, at);
        Py_XINCREF(one);
        if (!is_number(one, &sets[at])) count = -1;
    }
    Py_XDECREF(them);
    return count;
}

/* 1: it has the mutex; 0: somebody else has; -1: an exception. */
static int takes(Quick *self) {
    PyObject *got = PyObject_CallFunctionObjArgs(self->parts[ACQUIRE], Py_False, NULL);
    int is_mine = got == NULL ? -1 : PyObject_IsTrue(got);
    Py_XDECREF(got);
    return is_mine;
}

/* It gives the mutex back; `result` is 1 or 0 for True or False, or -1 for an exception, which stays. */
static PyObject *gives(Quick *self, int result) {
    PyObject *kind, *fault, *at;
    PyErr_Fetch(&kind, &fault, &at);
    PyObject *done = PyObject_CallFunctionObjArgs(self->parts[RELEASE], NULL);
    if (done == NULL) return NULL;
    Py_DECREF(done);
    PyErr_Restore(kind, fault, at);
    return result < 0 ? NULL : PyBool_FromLong(result);
}

/* Whether nobody else can be told anything; -1: an exception. */
static int is_alone(Quick *self) {
    Py_ssize_t busy = PySet_Size(self->parts[BUSY]), left = PySequence_Size(self->parts[LEFT]);
    return busy < 0 || left < 0 ? -1 : self->is_open && busy == 0 && left == 0;
}

/* (the shell asks again, and says why it is refused) */
static int forgets(Quick *self, PyObject *it, PyObject *key) {
    return PyDict_DelItem(self->parts[ASKERS], key) == 0 && writes(it, number_, 0) && writes(it, what_, NEW) ? 0 : -1;
}

static int asks(Quick *self, PyObject *it, const struct lab_asked *asked, const uint64_t *sets, size_t count, uint64_t now) {
    struct lab_outcome told;
    PyObject *key = PyLong_FromUnsignedLongLong(asked->number);
    int result = -1;
    self->next = asked->number + 1;
    if (key != NULL && PyObject_SetAttr(it, number_, key) == 0 && PyDict_SetItem(self->parts[ASKERS], key, it) == 0 && writes(it, what_, LAB_WAITS)) {
        if (self->ask(self->bay, asked, sets, count, now) != 0) {
            result = forgets(self, it, key);
        } else {
            if (self->tell(self->bay, self->done, &told) != 0 || told.number != asked->number || told.what != LAB_HOLDS)
                result = PySet_Add(self->parts[BUSY], key);
            else if (writes(it, needs_, told.needs) && writes(it, token_, told.token) && writes(it, what_, LAB_HOLDS)) {
                self->done = told.serial;
                result = 1;
            }
        }
    }
    Py_XDECREF(key);
    return result;
}

static PyObject *holds(PyObject *me, PyObject *it) {
    Quick *self = (Quick *)me;
    uint64_t limit, timeout, kind, now, sets[MOST_SETS];
    if (!self->is_open) Py_RETURN_FALSE;
    Py_ssize_t count = sets_of(it, sets);
    if (count < 0 || !reads(it, limit_, &limit) || !reads(it, timeout_, &timeout) || !reads(it, kind_, &kind)) return NULL;
    if (!is_number(PyObject_CallFunctionObjArgs(self->parts[NOW], NULL), &now)) return NULL;
    if (count == 0 || limit != LAB_NEVER) Py_RETURN_FALSE;
    int is_mine = takes(self);
    if (is_mine <= 0) return is_mine < 0 ? NULL : PyBool_FromLong(0);
    struct lab_asked asked = {0};
    asked.number = asked.owner[1] = self->next;
    asked.owner[0] = 1;
    asked.deadline = timeout > LAB_NEVER - now ? LAB_NEVER : now + timeout;
    asked.limit = LAB_NEVER;
    asked.kind = (uint32_t)kind;
    int result = is_alone(self);
    if (result > 0) result = asked.number & 15 ? asks(self, it, &asked, sets, (size_t)count, now) : 0;
    return gives(self, result);
}

static int goes(Quick *self, PyObject *it, uint64_t now) {
    uint64_t number, what;
    if (!reads(it, what_, &what) || !reads(it, number_, &number)) return -1;
    if (what != LAB_HOLDS || self->leave(self->bay, number, now) != 0) return 0;
    PyObject *key = PyLong_FromUnsignedLongLong(number);
    int is_done = key != NULL && writes(it, what_, LAB_LET_GO) && PyDict_DelItem(self->parts[ASKERS], key) == 0;
    Py_XDECREF(key);
    return is_done ? 1 : -1;
}

static PyObject *lets_go(PyObject *me, PyObject *it) {
    Quick *self = (Quick *)me;
    uint64_t now;
    if (!self->is_open) Py_RETURN_FALSE;
    if (!is_number(PyObject_CallFunctionObjArgs(self->parts[NOW], NULL), &now)) return NULL;
    int is_mine = takes(self);
    if (is_mine <= 0) return is_mine < 0 ? NULL : PyBool_FromLong(0);
    int result = is_alone(self);
    return gives(self, result > 0 ? goes(self, it, now) : result);
}

/* The session leaves if an interrupt came before Python's own end had begun: what was raised stays. */
static PyObject *leaves(PyObject *it) {
    PyObject *kind, *fault, *at;
    uint64_t what = LAB_HOLDS;
    if (PyErr_ExceptionMatches(labrun_error)) return NULL;
    PyErr_Fetch(&kind, &fault, &at);
    /* (another interrupt may come) */
    for (int times = 0; times < 100 && reads(it, what_, &what) && what == LAB_HOLDS; times++) {
        Py_XDECREF(PyObject_CallMethodObjArgs(it, leaves_, NULL));
        PyErr_Clear();
    }
    PyErr_Restore(kind, fault, at);
    return NULL;
}

/* The end of `with`. */
static PyObject *ends(PyObject *it, PyObject *given) {
    PyObject *quick = PyObject_GetAttr(it, quick_), *done = NULL;
    /* (it may be Python's) */
    if (quick != NULL && (PyObject *)Py_TYPE(quick) == quick_type) done = lets_go(quick, it);
    if (done == Py_False || (done == NULL && !PyErr_Occurred())) {
        PyObject *python = PyObject_GetAttr(it, ends_);
        Py_XDECREF(done);
        done = python == NULL ? NULL : PyObject_CallObject(python, given);
        Py_XDECREF(python);
    }
    Py_XDECREF(quick);
    if (done == NULL) return leaves(it);
    Py_DECREF(done);
    Py_RETURN_NONE;
}

static int begins(PyObject *me, PyObject *given, PyObject *named) {
    Quick *self = (Quick *)me;
    PyObject *machine, *mutex, **parts = self->parts;
    unsigned long long next, bay, ask, tell, leave;
    (void)named;
    if (!PyArg_ParseTuple(given, "OOOOOO", &machine, &mutex, &parts[NOW], &parts[ASKERS], &parts[BUSY], &parts[LEFT])) return -1;
    for (int at = NOW; at < PARTS; at++) Py_INCREF(parts[at]);
    parts[ACQUIRE] = PyObject_GetAttrString(mutex, "acquire");
    parts[RELEASE] = PyObject_GetAttrString(mutex, "release");
    PyObject *where = PyObject_CallMethod(machine, "addresses", NULL);
    if (parts[ACQUIRE] == NULL || parts[RELEASE] == NULL || where == NULL) return -1;
    int is_right = PyArg_ParseTuple(where, "KKKKK", &next, &bay, &ask, &tell, &leave);
    Py_DECREF(where);
    if (!is_right) return -1;
    self->next = next;
    self->bay = (struct lab_bay *)(uintptr_t)bay;
    self->ask = (uint32_t (*)(struct lab_bay *, const struct lab_asked *, const uint64_t *, size_t, uint64_t))(uintptr_t)ask;
    self->tell = (uint32_t (*)(struct lab_bay *, uint64_t, struct lab_outcome *))(uintptr_t)tell;
    self->leave = (uint32_t (*)(struct lab_bay *, uint64_t, uint64_t))(uintptr_t)leave;
    return 0;
}

/* (whoever holds is in `askers`, and has the shell: so a lab that nobody has goes only by the collector) */
static int visits(PyObject *me, visitproc visit, void *arg) {
    Py_VISIT(Py_TYPE(me));
    for (int at = 0; at < PARTS; at++) Py_VISIT(((Quick *)me)->parts[at]);
    return 0;
}

static int clears(PyObject *me) {
    ((Quick *)me)->is_open = 0;
    for (int at = 0; at < PARTS; at++) Py_CLEAR(((Quick *)me)->parts[at]);
    return 0;
}

static void frees(PyObject *me) {
    PyTypeObject *type = Py_TYPE(me);
    PyObject_GC_UnTrack(me);
    clears(me);
    PyObject_GC_Del(me);
    Py_DECREF(type);
}

static PyMemberDef members[] = {
    {"next", T_ULONGLONG, offsetof(Quick, next), 0, NULL},
    {"done", T_ULONGLONG, offsetof(Quick, done), 0, NULL},
    {"is_open", T_BOOL, offsetof(Quick, is_open), 0, NULL},
    {NULL, 0, 0, 0, NULL},
};
static PyMethodDef methods[] = {{"holds", holds, METH_O, NULL}, {"lets_go", lets_go, METH_O, NULL}, {NULL, NULL, 0, NULL}};
static PyMethodDef end = {"__exit__", ends, METH_VARARGS, NULL};
static PyType_Slot slots[] = {
    {Py_tp_init, (void *)begins}, {Py_tp_dealloc, (void *)frees},   {Py_tp_traverse, (void *)visits},
    {Py_tp_clear, (void *)clears}, {Py_tp_members, members}, {Py_tp_methods, methods}, {0, NULL},
};
static PyType_Spec spec = {"labrun._fast.Quick", sizeof(Quick), 0, Py_TPFLAGS_DEFAULT | Py_TPFLAGS_HAVE_GC, slots};
static struct PyModuleDef module = {PyModuleDef_HEAD_INIT, "_fast", NULL, -1, NULL, NULL, NULL, NULL, NULL};

/* (`made` has it from here on) */
static int has(PyObject *made, const char *name, PyObject *it) { return it != NULL && PyModule_AddObject(made, name, it) == 0; }

PyMODINIT_FUNC PyInit__fast(void) {
    PyObject **names[] = {&limit_, &timeout_, &kind_, &sets_, &number_, &what_, &needs_, &token_, &quick_, &ends_, &leaves_};
    const char *texts[] = {"limit", "timeout", "kind", "sets", "number", "what", "needs", "token", "_quick", "_ends", "_leaves"};
    for (size_t at = 0; at < sizeof texts / sizeof *texts; at++)
        if ((*names[at] = PyUnicode_InternFromString(texts[at])) == NULL) return NULL;
    PyObject *faults = PyImport_ImportModule("labrun._faults"), *made = PyModule_Create(&module);
    labrun_error = faults == NULL ? NULL : PyObject_GetAttrString(faults, "LabrunError");
    Py_XDECREF(faults);
    if (labrun_error == NULL || made == NULL || !has(made, "Quick", quick_type = PyType_FromSpec(&spec))) return NULL;
    /* (bound to whatever has it, as a function of Python's is) */
    return has(made, "ends", PyDescr_NewMethod(&PyBaseObject_Type, &end)) ? made : NULL;
}
