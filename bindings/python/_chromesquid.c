/* The small calls of chromesquid.py, for which ctypes takes longer than the search: an extension module for
 * CPython 3.8 and later.
 *
 * chromesquid.py passes the addresses of the library's functions, so this file is linked with nothing. It does
 * calls on a short haystack of bytes, or of a str with only ASCII characters. For any other call it returns
 * NotImplemented, and chromesquid.py does it. Build it next to chromesquid.py. It needs Python.h:
 *
 *     cc -O2 -shared -fPIC $(python3-config --includes) -o _chromesquid.abi3.so _chromesquid.c
 *
 * A call holds the interpreter's lock from start to end, so all threads use one handle. */
#define Py_LIMITED_API 0x03080000
#define PY_SSIZE_T_CLEAN
#include <Python.h>
#include <stdbool.h>
#include <stdint.h>
#include <string.h>

/* These structs are those of chromesquid.h. */
typedef struct {
    bool full;
    void *at;
} Handle;

typedef struct {
    const uint8_t *at;
    size_t len;
} Slice;

typedef struct {
    size_t pattern, start, end;
} Found;

enum { DONE = 0, FOUND = 1, NOT_CALLED = 2 };

typedef struct {
    uint32_t (*share)(Handle *, Handle *);
    void (*free)(Handle *);
    uint32_t (*is_match)(Handle *, const uint8_t *, size_t);
    uint32_t (*find)(Handle *, const uint8_t *, size_t, Found *);
    uint32_t (*find_all)(Handle *, const uint8_t *, size_t, Found *, size_t, size_t *);
    uint32_t (*overlapping)(Handle *, const uint8_t *, size_t, Found *, size_t, size_t *);
    uint32_t (*replace_all)(Handle *, const uint8_t *, size_t, const Slice *, size_t, uint8_t *, size_t, size_t *);
} Library;

/* The limits of a small call: its haystack, matches, result and replacements. Its buffers are on the stack. */
enum { SHORT = 512, MATCHES = 256, REPLACED = 4096, PIECES = 32 };

typedef struct {
    PyObject_HEAD
    Library library;
    Handle handle;
    bool of_texts;
    PyObject *match; /* the class of matches */
} Searcher;

static PyObject *tuple_new; /* tuple.__new__, which creates a match faster than the class itself */

/* The bytes of a haystack or of a replacement. */
typedef struct {
    const char *at;
    Py_ssize_t len;
    PyObject *held; /* the object that was created to hold them, or NULL */
} Text;

static void let_go(Text *text) {
    Py_XDECREF(text->held);
    text->held = NULL;
}

/* Gets the bytes of an object. Returns 1; 0 if it is neither bytes nor an ASCII str; or -1 with an error set. */
static int take(PyObject *given, Text *text) {
    text->held = NULL;
    if (PyBytes_CheckExact(given)) {
        char *at;
        if (PyBytes_AsStringAndSize(given, &at, &text->len) < 0) return -1;
        text->at = at;
        return 1;
    }
    if (!PyUnicode_CheckExact(given)) return 0;
    Py_ssize_t characters = PyUnicode_GetLength(given);
    if (characters < 0) return -1;
    if (characters > REPLACED) return 0;
    PyObject *made = PyUnicode_AsUTF8String(given);
    if (!made) {
        if (!PyErr_ExceptionMatches(PyExc_UnicodeEncodeError)) return -1;
        PyErr_Clear();
        return 0;
    }
    char *at;
    if (PyBytes_AsStringAndSize(made, &at, &text->len) < 0 || text->len != characters) {
        Py_DECREF(made);
        return PyErr_Occurred() ? -1 : 0;
    }
    text->at = at;
    text->held = made;
    return 1;
}

/* Gets the bytes of a haystack. Also returns 0 if it is long, or if it is a str and the patterns are bytes. */
static int take_haystack(Searcher *self, PyObject *given, Text *text) {
    if (PyUnicode_Check(given) && !self->of_texts) return text->held = NULL, 0;
    int taken = take(given, text);
    if (taken == 1 && text->len >= SHORT) {
        let_go(text);
        return 0;
    }
    return taken;
}

static PyObject *not_here(int taken) {
    if (taken < 0) return NULL;
    Py_INCREF(Py_NotImplemented);
    return Py_NotImplemented;
}

static PyObject *match_of(Searcher *self, const Found *found) {
    PyObject *numbers = Py_BuildValue("(nnn)", (Py_ssize_t)found->pattern, (Py_ssize_t)found->start, (Py_ssize_t)found->end);
    if (!numbers) return NULL;
    PyObject *match = PyObject_CallFunctionObjArgs(tuple_new, self->match, numbers, NULL);
    Py_DECREF(numbers);
    return match;
}

static PyObject *is_match(PyObject *object, PyObject *haystack) {
    Searcher *self = (Searcher *)object;
    Text text;
    int taken = take_haystack(self, haystack, &text);
    if (taken != 1) return not_here(taken);
    uint32_t status = self->library.is_match(&self->handle, (const uint8_t *)text.at, (size_t)text.len);
    let_go(&text);
    return status == DONE || status == FOUND ? PyBool_FromLong(status == FOUND) : not_here(0);
}

static PyObject *find(PyObject *object, PyObject *haystack) {
    Searcher *self = (Searcher *)object;
    Text text;
    Found found;
    int taken = take_haystack(self, haystack, &text);
    if (taken != 1) return not_here(taken);
    uint32_t status = self->library.find(&self->handle, (const uint8_t *)text.at, (size_t)text.len, &found);
    let_go(&text);
    if (status == FOUND) return match_of(self, &found);
    if (status != DONE) return not_here(0);
    Py_RETURN_NONE;
}

typedef uint32_t Lists(Handle *, const uint8_t *, size_t, Found *, size_t, size_t *);

/* Returns the matches as a list. */
static PyObject *listed(Searcher *self, Lists *lists, PyObject *haystack) {
    Text text;
    Found room[MATCHES];
    size_t count = 0;
    int taken = take_haystack(self, haystack, &text);
    if (taken != 1) return not_here(taken);
    uint32_t status = lists(&self->handle, (const uint8_t *)text.at, (size_t)text.len, room, MATCHES, &count);
    let_go(&text);
    if (status != DONE || count > MATCHES) return not_here(0);
    PyObject *matches = PyList_New((Py_ssize_t)count);
    for (size_t at = 0; matches && at < count; at++) {
        PyObject *match = match_of(self, &room[at]);
        if (!match || PyList_SetItem(matches, (Py_ssize_t)at, match) < 0) Py_CLEAR(matches);
    }
    return matches;
}

static PyObject *find_all(PyObject *object, PyObject *haystack) {
    Searcher *self = (Searcher *)object;
    return listed(self, self->library.find_all, haystack);
}

static PyObject *overlapping(PyObject *object, PyObject *haystack) {
    Searcher *self = (Searcher *)object;
    return listed(self, self->library.overlapping, haystack);
}

/* Returns the haystack with each match replaced by the item of its pattern in a list or tuple. The items have
 * the haystack's type. */
static PyObject *replace_all(PyObject *object, PyObject *arguments) {
    Searcher *self = (Searcher *)object;
    PyObject *haystack, *pieces;
    if (!PyArg_UnpackTuple(arguments, "replace_all", 2, 2, &haystack, &pieces)) return NULL;
    bool is_list = PyList_Check(pieces), is_text = PyUnicode_CheckExact(haystack);
    if (!is_list && !PyTuple_Check(pieces)) return not_here(0);
    Py_ssize_t count = is_list ? PyList_Size(pieces) : PyTuple_Size(pieces);
    if (count < 0 || count > PIECES) return not_here(count < 0 ? -1 : 0);
    Text text, parts[PIECES];
    Slice slices[PIECES];
    int taken = take_haystack(self, haystack, &text);
    if (taken != 1) return not_here(taken);
    Py_ssize_t have = 0;
    for (; taken == 1 && have < count; have++) {
        PyObject *piece = is_list ? PyList_GetItem(pieces, have) : PyTuple_GetItem(pieces, have);
        taken = piece && PyUnicode_CheckExact(piece) == is_text ? take(piece, &parts[have]) : piece ? 0 : -1;
        if (taken != 1) break;
        slices[have] = (Slice){(const uint8_t *)parts[have].at, (size_t)parts[have].len};
    }
    uint8_t room[REPLACED];
    size_t len = 0;
    uint32_t status = NOT_CALLED;
    if (taken == 1)
        status = self->library.replace_all(&self->handle, (const uint8_t *)text.at, (size_t)text.len, slices, (size_t)count, room,
                                           sizeof room, &len);
    for (Py_ssize_t at = 0; at < have; at++) let_go(&parts[at]);
    let_go(&text);
    if (status != DONE) return not_here(taken);
    const char *replaced = (const char *)room;
    return is_text ? PyUnicode_DecodeUTF8(replaced, (Py_ssize_t)len, NULL) : PyBytes_FromStringAndSize(replaced, (Py_ssize_t)len);
}

static PyObject *made(PyTypeObject *type, PyObject *arguments, PyObject *named) {
    unsigned long long at[7], handle;
    int of_texts;
    PyObject *match;
    (void)named;
    if (!PyArg_ParseTuple(arguments, "(KKKKKKK)KpO", at, at + 1, at + 2, at + 3, at + 4, at + 5, at + 6, &handle, &of_texts, &match)) return NULL;
    allocfunc allocate = (allocfunc)PyType_GetSlot(type, Py_tp_alloc);
    Searcher *self = (Searcher *)allocate(type, 0);
    if (!self) return NULL;
    memcpy(&self->library, at, sizeof self->library); /* an address has 64 bits here */
    self->of_texts = of_texts;
    self->match = match;
    Py_INCREF(match);
    if (self->library.share((Handle *)(uintptr_t)handle, &self->handle) != DONE) {
        Py_DECREF(self);
        return PyErr_NoMemory();
    }
    return (PyObject *)self;
}

static void gone(PyObject *object) {
    Searcher *self = (Searcher *)object;
    PyTypeObject *type = Py_TYPE(object);
    if (self->library.free) self->library.free(&self->handle);
    Py_CLEAR(self->match);
    freefunc release = (freefunc)PyType_GetSlot(type, Py_tp_free);
    release(object);
    Py_DECREF(type);
}

static PyMethodDef methods[] = {
    {"is_match", is_match, METH_O, "Returns whether a pattern occurs."},
    {"find", find, METH_O, "Returns the first match, or None."},
    {"find_all", find_all, METH_O, "Returns the matches. Each search begins where the previous match ended."},
    {"overlapping", overlapping, METH_O, "Returns all matches, including overlapping ones."},
    {"replace_all", replace_all, METH_VARARGS, "Returns the haystack with each match replaced."},
    {NULL, NULL, 0, NULL},
};

static PyType_Slot slots[] = {
    {Py_tp_new, (void *)made},
    {Py_tp_dealloc, (void *)gone},
    {Py_tp_methods, methods},
    {Py_tp_doc, "A handle of a searcher for small calls. It returns NotImplemented for others."},
    {0, NULL},
};

static PyType_Spec spec = {"_chromesquid.Searcher", sizeof(Searcher), 0, Py_TPFLAGS_DEFAULT, slots};

static int filled(PyObject *module) {
    tuple_new = PyObject_GetAttrString((PyObject *)&PyTuple_Type, "__new__");
    PyObject *type = PyType_FromSpec(&spec);
    if (!tuple_new || !type) return -1;
    return PyModule_AddObject(module, "Searcher", type);
}

static PyModuleDef_Slot module_slots[] = {{Py_mod_exec, (void *)filled}, {0, NULL}};

static PyModuleDef module = {
    PyModuleDef_HEAD_INIT, "_chromesquid", "The small calls of chromesquid.py.", 0, NULL, module_slots, NULL, NULL, NULL,
};

PyMODINIT_FUNC PyInit__chromesquid(void) {
    return PyModuleDef_Init(&module);
}
