/* Categoricals of pandas. Each category that one uses is a string of the batch, once, in the order of their first rows; its rows then get the numbers
 * of their categories. */
#include <string.h>
#include "shared.h"

/* The categories that the rows use. */
typedef struct {
    Py_buffer codes;
    /* For each category, and behind them for what is missing, its place among those that are used, or UNUSED. */
    uint32_t *places;
    size_t count;
    /* Those that are used, and how many they are. */
    uint32_t *used;
    size_t used_count;
    bool skips;
} Categories;

#define UNUSED UINT32_MAX

/* Stores the Categorical that an object is, or that a column of pandas has. Returns 1, 0 if there is none, or -1 and an exception. */
static int find_categorical(PyObject *contents, PyObject **categorical) {
    PyObject *name = PyUnicode_FromString("pandas"), *pandas = name ? PyImport_GetModule(name) : NULL, *type = NULL;
    int is_one = pandas ? find_attribute(pandas, "Categorical", &type) : (PyErr_Occurred() ? -1 : 0);
    *categorical = NULL;
    if (is_one == 1) is_one = PyObject_IsInstance(contents, type);
    if (is_one == 1) *categorical = Py_NewRef(contents);
    else if (is_one == 0 && type && (is_one = find_attribute(contents, "array", categorical)) == 1) is_one = PyObject_IsInstance(*categorical, type);
    if (is_one != 1) Py_CLEAR(*categorical);
    Py_XDECREF(type);
    Py_XDECREF(pandas);
    Py_XDECREF(name);
    return is_one;
}

/* A code of pandas, which is read once. */
static int64_t code_at(const char *at, Py_ssize_t size) {
    int8_t byte;
    int16_t two;
    int32_t four;
    int64_t eight;
    switch (size) {
        case 1: return memcpy(&byte, at, sizeof byte), byte;
        case 2: return memcpy(&two, at, sizeof two), two;
        case 4: return memcpy(&four, at, sizeof four), four;
        default: return memcpy(&eight, at, sizeof eight), eight;
    }
}

/* Gives each row the place of its category, or MISSING if it is skipped, and stores the first row of each. Returns how many rows it got to: all, or
 * those before a code that is none. Runs without the interpreter's lock. */
static size_t place_rows(Categories *categories, Source *source) {
    const char *at = categories->codes.buf;
    Py_ssize_t size = categories->codes.itemsize, stride = categories->codes.strides[0];
    for (size_t row = 0; row < source->row_count; row++, at += stride) {
        int64_t code = code_at(at, size);
        if (code >= (int64_t)categories->count) return row;
        source->rows[row] = MISSING;
        if (code < 0 && categories->skips) continue;
        size_t category = code < 0 ? categories->count : (size_t)code;
        if (categories->places[category] == UNUSED) {
            categories->places[category] = (uint32_t)categories->used_count;
            categories->used[categories->used_count] = (uint32_t)category;
            source->firsts[categories->used_count++] = (Py_ssize_t)row;
        }
        source->rows[row] = categories->places[category];
    }
    return source->row_count;
}

/* Memory for so many rows and categories. */
static int reserve_rows(Categories *categories, Source *source) {
    size_t most = categories->count + 1;
    source->rows = PyMem_Malloc((source->row_count + 1) * sizeof *source->rows);
    source->firsts = PyMem_Malloc(most * sizeof *source->firsts);
    categories->used = PyMem_Malloc(most * sizeof *categories->used);
    categories->places = PyMem_Malloc(most * sizeof *categories->places);
    if (!source->rows || !source->firsts || !categories->used || !categories->places) return PyErr_NoMemory(), -1;
    memset(categories->places, 0xff, most * sizeof *categories->places);
    return 0;
}

/* A list of the categories that are used, with NaN for what is missing. */
static PyObject *used_of(const Categories *categories, const Source *of) {
    PyObject *list = PyList_New((Py_ssize_t)categories->used_count);
    for (size_t i = 0; list && i < categories->used_count; i++) {
        size_t category = categories->used[i];
        PyObject *item = category == categories->count ? PyFloat_FromDouble(Py_NAN) : Py_NewRef(of->items[category] ? of->items[category] : Py_None);
        if (item) PyList_SET_ITEM(list, (Py_ssize_t)i, item);
        else Py_CLEAR(list);
    }
    return list;
}

/* Opens the source over the categories that the borrowed codes use, of those that `of` has. */
static int open_used(Source *source, Categories *categories, const Source *of) {
    size_t done;
    categories->count = (size_t)of->count;
    source->row_count = (size_t)(categories->codes.len / categories->codes.itemsize);
    if (reserve_rows(categories, source) < 0) return -1;
    Py_BEGIN_ALLOW_THREADS
    done = place_rows(categories, source);
    Py_END_ALLOW_THREADS
    if (done < source->row_count) return PyErr_Format(PyExc_ValueError, "the code at position %zd of the Categorical is that of no category", (Py_ssize_t)done), -1;
    PyObject *list = used_of(categories, of);
    int status = list ? own_list(source, list) : -1;
    Py_XDECREF(list);
    return status;
}

/* Whether the codes are integers with a sign in one dimension, as pandas has them. */
static int check_format(const Py_buffer *view) {
    const char *format = view->format ? view->format : "";
    if (view->ndim == 1 && format[0] && !format[1] && strchr("bhilq", format[0])) return 0;
    PyErr_SetString(PyExc_TypeError, "the codes of a Categorical are a column of integers with a sign");
    return -1;
}

/* The same over a Categorical's codes and its categories. */
static int open_parts(Source *source, PyObject *codes, PyObject *index, bool skips) {
    Categories categories = {.skips = skips};
    Source of = {.kind = source->kind};
    if (PyObject_GetBuffer(codes, &categories.codes, PyBUF_STRIDES | PyBUF_FORMAT) < 0) return -1;
    int status = check_format(&categories.codes) < 0 || open_column(&of, index) < 0 ? -1 : open_used(source, &categories, &of);
    close_source(&of);
    PyMem_Free(categories.used);
    PyMem_Free(categories.places);
    PyBuffer_Release(&categories.codes);
    return status;
}

int open_categorical(Source *source, PyObject *contents, bool skips) {
    PyObject *categorical;
    int is_one = find_categorical(contents, &categorical);
    if (is_one != 1) return is_one;
    PyObject *codes = PyObject_GetAttrString(categorical, "codes"), *index = codes ? PyObject_GetAttrString(categorical, "categories") : NULL;
    int status = index ? open_parts(source, codes, index, skips) : -1;
    Py_XDECREF(index);
    Py_XDECREF(codes);
    Py_DECREF(categorical);
    return status < 0 ? -1 : 1;
}

/* Each row reads and writes its own place, without the interpreter's lock. */
static void spread_to(uint32_t *rows, size_t count, const uint32_t *numbers, uint32_t missing) {
    for (size_t i = 0; i < count; i++) rows[i] = rows[i] == MISSING ? missing : numbers[rows[i]];
}

void spread(Source *source, Numbers *numbers, uint32_t missing) {
    if (!source->rows) return;
    Py_BEGIN_ALLOW_THREADS
    spread_to(source->rows, source->row_count, numbers->at, missing);
    Py_END_ALLOW_THREADS
    PyMem_Free(numbers->at);
    *numbers = (Numbers){.at = source->rows, .count = source->row_count, .room = source->row_count};
    source->rows = NULL;
}

int spread_found(const Source *source, uint64_t **numbers) {
    if (!source->rows) return 0;
    uint64_t *found = PyMem_Malloc((source->row_count + 1) * sizeof *found);
    if (!found) return PyErr_NoMemory(), -1;
    for (size_t i = 0; i < source->row_count; i++) found[i] = source->rows[i] == MISSING ? INTAGLIO_ABSENT : (*numbers)[source->rows[i]];
    PyMem_Free(*numbers);
    *numbers = found;
    return 0;
}
