/* Codes in buffers: what they stand for, and what they become under a map. */
#include <string.h>
#include "shared.h"

int read_stand(PyObject *missing, Stand *stand) {
    *stand = (Stand){.is_given = missing && missing != Py_None};
    if (!stand->is_given) return 0;
    /* (a number that doesn't fit becomes the nearest that does) */
    Py_ssize_t number = PyNumber_AsSsize_t(missing, NULL);
    if (number == -1 && PyErr_Occurred()) return -1;
    if (number < 0 || number > (Py_ssize_t)UINT32_MAX) {
        PyErr_SetString(PyExc_OverflowError, "the code of what is missing is from 0 to 2**32 - 1, such as MISSING, which is -1 as an integer with a sign");
        return -1;
    }
    stand->code = (uint32_t)number;
    return 0;
}

/* Buffers */

/* Whether a buffer has integers of 4 bytes, with or without a sign. */
static bool has_codes(const Py_buffer *view) {
    const char *format = view->format ? view->format : "B";
    if (format[0] == '@' || format[0] == '=' || format[0] == '<') format++;
    return view->itemsize == sizeof(uint32_t) && format[0] && !format[1] && strchr("IiLl", format[0]);
}

/* Borrows a buffer of codes. An array of numpy with a mask, which its buffer doesn't have, is refused. */
static int borrow(PyObject *buffer, Py_buffer *view, int flags) {
    if (PyObject_CheckBuffer(buffer) && !PyObject_HasAttrString(buffer, "mask")) {
        if (PyObject_GetBuffer(buffer, view, flags | PyBUF_FORMAT) < 0) return -1;
        if (has_codes(view)) return 0;
        PyBuffer_Release(view);
    }
    raise_by("no_codes", "(O)", buffer);
    return -1;
}

int borrow_codes(PyObject *buffer, Py_buffer *view) { return borrow(buffer, view, PyBUF_WRITABLE | PyBUF_C_CONTIGUOUS); }

PyObject *write_codes(const Py_buffer *view, const uint32_t *codes, size_t count) {
    if (count > (size_t)view->len / sizeof *codes) return refused(INTAGLIO_NO_SPACE);
    if (count) memcpy(view->buf, codes, count * sizeof *codes);
    return PyLong_FromSize_t(count);
}

PyObject *typed_array(char type, const void *numbers, size_t size) {
    PyObject *module = PyImport_ImportModule("array");
    PyObject *array = module ? PyObject_CallMethod(module, "array", "C", type) : NULL;
    PyObject *view = array ? PyMemoryView_FromMemory(size ? (char *)numbers : "", (Py_ssize_t)size, PyBUF_READ) : NULL;
    PyObject *none = view ? PyObject_CallMethod(array, "frombytes", "O", view) : NULL;
    if (!none) Py_CLEAR(array);
    Py_XDECREF(none);
    Py_XDECREF(view);
    Py_XDECREF(module);
    return array;
}

PyObject *array_of(const uint32_t *numbers, size_t count) { return typed_array('I', numbers, count * sizeof *numbers); }

void close_codes(Codes *codes) {
    PyMem_Free(codes->own);
    PyBuffer_Release(&codes->view);
}

/* Gives the codes memory of their own. */
static int copy_codes(Codes *codes) {
    Py_buffer *view = &codes->view;
    codes->own = PyMem_Malloc((size_t)view->len + 1);
    if (!codes->own) return PyErr_NoMemory(), -1;
    codes->at = codes->own;
    return PyBuffer_ToContiguous(codes->own, view, view->len, 'C');
}

static int open_buffer(Codes *codes, PyObject *buffer) {
    Py_buffer *view = &codes->view;
    if (borrow(buffer, view, PyBUF_STRIDES) < 0) return -1;
    codes->own = NULL;
    codes->at = view->buf;
    codes->count = (size_t)view->len / sizeof(uint32_t);
    if (PyBuffer_IsContiguous(view, 'C') && (uintptr_t)view->buf % sizeof(uint32_t) == 0) return 0;
    if (copy_codes(codes) == 0) return 0;
    close_codes(codes);
    return -1;
}

int open_codes(Codes *codes, PyObject *given) {
    PyObject *array;
    if (PyObject_CheckBuffer(given) || call_if_there(given, "to_numpy", &array) == 0) return open_buffer(codes, given);
    int status = array ? open_buffer(codes, array) : -1;
    Py_XDECREF(array);
    return status;
}

void give_turn(void) {
    Py_BEGIN_ALLOW_THREADS
    Py_END_ALLOW_THREADS
}

/* Decoding */

/* Puts the strings into a list. If there are as many codes as symbols, the object of each string is made once, and found again by its symbol.
 * Returns -1 and an exception. */
static int decode_into(PyObject *list, const void *of, StringOf string_of, PyObject **made, size_t len, bool yields, const Codes *codes, PyObject *missing) {
    for (size_t i = 0; i < codes->count; i++) {
        uint32_t code = load_code(codes, i);
        PyObject *known = made && code < len ? made[code] : NULL;
        PyObject *string = known ? Py_NewRef(known) : (code == MISSING && missing ? Py_NewRef(missing) : string_of(of, code));
        if (!string && !PyErr_Occurred()) raise_by("no_symbol", "(In)", (unsigned int)code, (Py_ssize_t)i);
        if (!string) return -1;
        if (made && code < len) made[code] = string;
        PyList_SET_ITEM(list, (Py_ssize_t)i, string);
        if (yields && i % TURN == TURN - 1) give_turn();
    }
    return 0;
}

PyObject *decode_by(const void *of, StringOf string_of, size_t len, bool yields, PyObject *buffer, PyObject *missing) {
    Codes codes;
    if (open_codes(&codes, buffer) < 0) return NULL;
    PyObject *list = PyList_New((Py_ssize_t)codes.count), **made = len <= codes.count ? PyMem_Calloc(len + 1, sizeof *made) : NULL;
    if (list) {
        /* While it is filled no other thread finds it. */
        PyObject_GC_UnTrack(list);
        if (decode_into(list, of, string_of, made, len, yields, &codes, missing) < 0) Py_CLEAR(list);
        else PyObject_GC_Track(list);
    }
    PyMem_Free(made);
    close_codes(&codes);
    return list;
}

/* Renumbering */

/* Writes the entry of a map for each code to `out`, if there is one, or only looks whether each has one. MISSING stays. Returns how many have
 * one: the place of the first that hasn't, or all. */
static size_t renumber_to(uint32_t *out, const Codes *numbers, const Codes *codes) {
    for (size_t i = 0; i < codes->count; i++) {
        uint32_t code = load_code(codes, i);
        if (code >= numbers->count && code != MISSING) return i;
        if (out) out[i] = code == MISSING ? MISSING : load_code(numbers, code);
    }
    return codes->count;
}

/* Renumbers without the interpreter's lock, and raises NoSymbol. */
static int renumber_all(uint32_t *out, const Codes *numbers, const Codes *codes) {
    size_t done;
    Py_BEGIN_ALLOW_THREADS
    done = renumber_to(out, numbers, codes);
    Py_END_ALLOW_THREADS
    if (done == codes->count) return 0;
    raise_by("no_symbol", "(In)", (unsigned int)load_code(codes, done), (Py_ssize_t)done);
    return -1;
}

static PyObject *renumber_to_array(const Codes *numbers, const Codes *codes) {
    uint32_t *renumbered = PyMem_Malloc((codes->count + 1) * sizeof *renumbered);
    if (!renumbered) return PyErr_NoMemory();
    PyObject *array = renumber_all(renumbered, numbers, codes) == 0 ? array_of(renumbered, codes->count) : NULL;
    PyMem_Free(renumbered);
    return array;
}

/* Gives codes memory of their own if they overlap a buffer. */
static int separate(Codes *codes, const Py_buffer *view) {
    const char *at = view->buf, *other = (const char *)codes->at;
    bool are_apart = codes->own || at >= other + codes->count * sizeof(uint32_t) || other >= at + view->len;
    return are_apart ? 0 : copy_codes(codes);
}

/* Writes to a borrowed buffer, after a look at all codes, so that it is unchanged if one has no entry. */
static int renumber_to_view(const Py_buffer *view, Codes *numbers, Codes *codes) {
    if (codes->count > (size_t)view->len / sizeof(uint32_t)) return refused(INTAGLIO_NO_SPACE), -1;
    /* (an array without items has no place of its own) */
    if (codes->count && (uintptr_t)view->buf % sizeof(uint32_t)) return PyErr_SetString(PyExc_TypeError, "the buffer for the codes isn't aligned to 4 bytes"), -1;
    if (separate(numbers, view) < 0 || (view->buf != codes->view.buf && separate(codes, view) < 0)) return -1;
    return renumber_all(NULL, numbers, codes) < 0 ? -1 : renumber_all(view->buf, numbers, codes);
}

static PyObject *renumber_to_buffer(PyObject *out, Codes *numbers, Codes *codes) {
    Py_buffer view;
    if (borrow_codes(out, &view) < 0) return NULL;
    int status = renumber_to_view(&view, numbers, codes);
    PyBuffer_Release(&view);
    return status < 0 ? NULL : Py_NewRef(out);
}

PyDoc_STRVAR(renumber_doc, "renumber(codes, numbers, /, out=None)\n--\n\n"
"An array('I') of codes under a map, such as those that merge and Table.absorb return: the entry of the map at each code. MISSING\n"
"stays. With `out`, a buffer for as many codes, it is written there and returned; that may be the codes' own.\n\n"
"All are buffers of integers of 4 bytes. Raises NoSymbol, with the position, for a code that the map has no entry for, and NoSpace;\n"
"`out` is then unchanged. Other threads may run meanwhile.\n\n"
">>> from array import array\n"
">>> codes = array(\"I\", [0, 2, MISSING])\n"
">>> renumber(codes, array(\"I\", [5, 6, 7]))\n"
"array('I', [5, 7, 4294967295])\n"
">>> renumber(codes, array(\"I\", [5, 6, 7]), out=codes) is codes, codes\n"
"(True, array('I', [5, 7, 4294967295]))");
static PyObject *renumber(PyObject *Py_UNUSED(module), PyObject *args, PyObject *named) {
    static char *names[] = {"", "", "out", NULL};
    PyObject *given, *map, *out = Py_None, *renumbered = NULL;
    Codes codes, numbers;
    if (!PyArg_ParseTupleAndKeywords(args, named, "OO|O:renumber", names, &given, &map, &out) || open_codes(&codes, given) < 0) return NULL;
    if (open_codes(&numbers, map) == 0) {
        renumbered = out == Py_None ? renumber_to_array(&numbers, &codes) : renumber_to_buffer(out, &numbers, &codes);
        close_codes(&numbers);
    }
    close_codes(&codes);
    return renumbered;
}

PyMethodDef codes_functions[] = {
    {"renumber", FAST(renumber), METH_VARARGS | METH_KEYWORDS, renumber_doc},
    {NULL, NULL, 0, NULL},
};
