/* The strings of a batch in order: items of lists and of arrays of objects, and lines of buffers. */
#include <math.h>
#include <string.h>
#include "shared.h"

int find_attribute(PyObject *object, const char *name, PyObject **attribute) {
    *attribute = PyObject_GetAttrString(object, name);
    if (*attribute) return 1;
    if (!PyErr_ExceptionMatches(PyExc_AttributeError)) return -1;
    PyErr_Clear();
    return 0;
}

int call_if_there(PyObject *object, const char *name, PyObject **result) {
    PyObject *method;
    int is_there = find_attribute(object, name, &method);
    *result = is_there == 1 ? PyObject_CallNoArgs(method) : NULL;
    Py_XDECREF(method);
    return is_there == 1 && !*result ? -1 : is_there;
}

/* The path that a content is; null without an exception if it is none, or with one. */
static PyObject *path_of(PyObject *content) {
    PyObject *method, *path = find_attribute((PyObject *)Py_TYPE(content), "__fspath__", &method) == 1 ? PyOS_FSPath(content) : NULL;
    Py_XDECREF(method);
    if (path && !PyUnicode_Check(path)) Py_CLEAR(path);
    return path;
}

PyObject *native(uint32_t kind, PyObject *content, Py_ssize_t position, const char *advice) {
    if (is_native(kind, content)) return Py_NewRef(content);
    PyObject *path = kind == INTAGLIO_PATH ? path_of(content) : NULL;
    if (path || PyErr_Occurred()) return path;
    if (!has_texts(kind) && (PyByteArray_Check(content) || PyMemoryView_Check(content))) return PyBytes_FromObject(content);
    return wrong_type(kind, content, position, advice);
}

/* Items */

static bool stands_for_missing(PyObject *item, PyObject *na) {
    return !item || item == Py_None || item == na || (PyFloat_Check(item) && isnan(PyFloat_AS_DOUBLE(item)));
}

bool is_skipped(const Source *source, PyObject *item) { return source->skips && stands_for_missing(item, source->na); }

/* Stores pandas.NA, or null if pandas wasn't imported. Returns -1 and an exception if it can't be told. */
static int find_na(PyObject **na) {
    PyObject *name = PyUnicode_FromString("pandas"), *pandas = name ? PyImport_GetModule(name) : NULL;
    *na = NULL;
    int status = pandas ? find_attribute(pandas, "NA", na) : (PyErr_Occurred() ? -1 : 0);
    Py_XDECREF(pandas);
    Py_XDECREF(name);
    return status < 0 ? -1 : 0;
}

bool is_missing(PyObject *object) {
    PyObject *na;
    if (find_na(&na) < 0) PyErr_Clear();
    bool is_one = stands_for_missing(object, na);
    Py_XDECREF(na);
    return is_one;
}

/* Borrows the pointers of an array of objects, such as numpy's, if that is one of one dimension without gaps. Returns 1, 0 if it isn't, or -1
 * and an exception. */
static int borrow_objects(Source *source, PyObject *array) {
    Py_buffer *view = &source->view;
    if (PyObject_GetBuffer(array, view, PyBUF_ND | PyBUF_FORMAT) < 0) {
        view->obj = NULL;
        if (PyErr_ExceptionMatches(PyExc_MemoryError)) return -1;
        PyErr_Clear();
        return 0;
    }
    if (view->ndim == 1 && view->format && strcmp(view->format, "O") == 0 && view->itemsize == sizeof(PyObject *)) {
        source->items = view->buf;
        source->count = view->len / (Py_ssize_t)sizeof(PyObject *);
        return 1;
    }
    PyBuffer_Release(view);
    return 0;
}

int own_list(Source *source, PyObject *contents) {
    source->owner = PySequence_Fast(contents, "an iterable of strings");
    if (!source->owner) return -1;
    source->items = PySequence_Fast_ITEMS(source->owner);
    source->count = PySequence_Fast_GET_SIZE(source->owner);
    return 0;
}

/* Returns -1 and TypeError for an array of another number of dimensions than one, such as that of a DataFrame. */
static int check_dimensions(PyObject *array) {
    PyObject *number;
    long dimensions = find_attribute(array, "ndim", &number) == 1 ? PyLong_AsLong(number) : 1;
    Py_XDECREF(number);
    if (PyErr_Occurred()) return -1;
    if (dimensions == 1) return 0;
    PyErr_Format(PyExc_TypeError, "a column of strings has one dimension, and this has %ld: pass each of its columns by itself", dimensions);
    return -1;
}

/* The items of an array of another type, such as one of str of a fixed width, become objects all at once, and so do those of one with a mask:
 * what is masked becomes None. */
static int open_array(Source *source, PyObject *array) {
    PyObject *list;
    if (check_dimensions(array) < 0) return -1;
    int is_borrowed = PyObject_HasAttrString(array, "mask") ? 0 : borrow_objects(source, array);
    if (is_borrowed) return is_borrowed < 0 ? -1 : 0;
    if (call_if_there(array, "tolist", &list) == 0) return own_list(source, array);
    int status = list ? own_list(source, list) : -1;
    Py_XDECREF(list);
    return status;
}

int open_column(Source *source, PyObject *contents) {
    PyObject *array;
    if (call_if_there(contents, "to_numpy", &array) == 0) return own_list(source, contents);
    int status = array ? open_array(source, array) : -1;
    Py_XDECREF(array);
    return status;
}

int open_items(Source *source, uint32_t kind, PyObject *contents, bool skips) {
    *source = (Source){.kind = kind, .skips = skips};
    if (PyUnicode_Check(contents) || PyBytes_Check(contents)) {
        PyErr_Format(PyExc_TypeError, "a list or another iterable of strings, not a single %.200s: [string] is a list of one", Py_TYPE(contents)->tp_name);
        return -1;
    }
    bool is_array = PyObject_CheckBuffer(contents), is_list = PyList_CheckExact(contents) || PyTuple_CheckExact(contents);
    int is_categorical = is_list || is_array ? 0 : open_categorical(source, contents, skips);
    if (is_categorical) return is_categorical < 0 ? -1 : 0;
    int status = is_list ? own_list(source, contents) : (is_array ? open_array(source, contents) : open_column(source, contents));
    return status == 0 && skips ? find_na(&source->na) : status;
}

void close_source(Source *source) {
    if (source->view.obj) PyBuffer_Release(&source->view);
    Py_CLEAR(source->owner);
    Py_CLEAR(source->na);
    PyMem_Free(source->zeroed);
    PyMem_Free(source->rows);
    PyMem_Free(source->firsts);
    source->zeroed = NULL;
    source->rows = NULL;
    source->firsts = NULL;
}

/* A new list of the items. */
static PyObject *listed(const Source *source) {
    if (source->owner) return PySequence_List(source->owner);
    PyObject *list = PyList_New(source->count);
    for (Py_ssize_t i = 0; list && i < source->count; i++) PyList_SET_ITEM(list, i, Py_NewRef(source->items[i] ? source->items[i] : Py_None));
    return list;
}

int convert_items(Source *source, bool takes_missing) {
    PyObject *list = listed(source);
    for (Py_ssize_t i = 0; list && i < PyList_GET_SIZE(list); i++) {
        PyObject *item = PyList_GET_ITEM(list, i);
        if (is_native(source->kind, item) || is_skipped(source, item)) continue;
        item = native(source->kind, item, place_of(source, i), takes_missing && is_missing(item) ? ADVICE_ON_MISSING : "");
        if (!item || PyList_SetItem(list, i, item) < 0) Py_CLEAR(list);
    }
    if (!list) return -1;
    if (source->view.obj) PyBuffer_Release(&source->view);
    Py_CLEAR(source->owner);
    source->position = 0;
    int status = own_list(source, list);
    Py_DECREF(list);
    return status;
}

int refresh_items(Source *source) {
    if (!source->owner) return 0;
    source->items = PySequence_Fast_ITEMS(source->owner);
    if (source->count == PySequence_Fast_GET_SIZE(source->owner)) return 0;
    PyErr_SetString(PyExc_RuntimeError, "the list of strings changed its length meanwhile");
    return -1;
}

/* Lines */

int open_lines(Source *source, uint32_t kind, PyObject *buffer) {
    *source = (Source){.kind = kind, .is_lines = true, .count = PY_SSIZE_T_MAX};
    if (PyUnicode_Check(buffer)) return PyErr_SetString(PyExc_TypeError, "the lines are in a buffer of bytes, not in a str: str.encode makes one"), -1;
    if (PyObject_GetBuffer(buffer, &source->view, PyBUF_SIMPLE) < 0) return source->view.obj = NULL, -1;
    source->line = source->view.buf;
    source->end = source->line + source->view.len;
    if (kind != INTAGLIO_CSTR) return 0;
    source->zeroed = PyMem_Malloc((size_t)source->view.len + 1);
    if (source->zeroed) return memcpy(source->zeroed, source->view.buf, (size_t)source->view.len), 0;
    PyErr_NoMemory();
    close_source(source);
    return -1;
}

Next peek_line(Source *source, const uint8_t **at, size_t *len) {
    if (source->line == source->end) return END;
    const uint8_t *stop = memchr(source->line, '\n', (size_t)(source->end - source->line));
    *len = source->line_len = (size_t)((stop ? stop : source->end) - source->line);
    *at = source->line;
    if (!source->zeroed) return STRING;
    uint8_t *copy = source->zeroed + (source->line - (const uint8_t *)source->view.buf);
    copy[*len] = 0;
    *at = copy;
    *len += 1;
    return STRING;
}

/* Groups */

Next join(Source *source, Group *group) {
    group->at = group->bytes;
    group->count = group->len = 0;
    while (group->count < group->most) {
        size_t len;
        const uint8_t *at;
        Next next = peek(source, &at, &len);
        if (next == SKIPPED) {
            advance(source);
            continue;
        }
        if (next != STRING) return next;
        if (len <= group->room - group->len) memcpy(group->bytes + group->len, at, len);
        else if (group->count == 0) group->at = at;
        else return STRING;
        group->places[group->count] = source->position;
        group->ends[group->count++] = group->len += len;
        advance(source);
        if (group->at == at) return STRING;
    }
    return STRING;
}

int reserve_numbers(Numbers *numbers, size_t count) {
    if (count <= numbers->room) return 0;
    size_t room = count > 2 * numbers->room ? count : 2 * numbers->room;
    uint32_t *at = room <= PY_SSIZE_T_MAX / sizeof *at ? PyMem_Realloc(numbers->at, room * sizeof *at) : NULL;
    if (!at) return PyErr_NoMemory(), -1;
    numbers->at = at;
    numbers->room = room;
    return 0;
}
