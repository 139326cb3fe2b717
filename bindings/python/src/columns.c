/* Columns: functions of their bytes, over which column.py has a class. They are read-only, so what goes through all rows releases the
 * interpreter's lock. */
#include "shared.h"

/* Borrows the bytes of a column. */
static int borrow_column(PyObject *data, Py_buffer *view) {
    if (PyObject_GetBuffer(data, view, PyBUF_SIMPLE) == 0) return 0;
    if (PyErr_ExceptionMatches(PyExc_ValueError) && PyMemoryView_Check(data)) PyErr_SetString(PyExc_ValueError, "the Column was closed");
    return -1;
}

/* Reads the arguments of a function: the bytes, and so many others. */
static int open_rows(PyObject *const *args, Py_ssize_t count, Py_ssize_t wanted, Py_buffer *view) {
    if (count != wanted) return PyErr_Format(PyExc_TypeError, "takes %zd arguments (%zd given)", wanted, count), -1;
    return borrow_column(args[0], view);
}

/* Raises NoSymbol for the first row whose code is neither a symbol nor MISSING, which isn't allowed in a map. */
static PyObject *no_string_in(const Py_buffer *view) {
    intaglio_dictionary_id id, source;
    uint32_t code = MISSING;
    size_t row = 0, len = (size_t)view->len;
    if (intaglio_column_id(view->buf, len, &id) || intaglio_column_source(view->buf, len, &source)) return refused(INTAGLIO_NO_SYMBOL);
    while (intaglio_column_code(view->buf, len, row, &code) && (code < id.count || (code == MISSING && source.shards == 0))) row++;
    return raise_by("no_symbol", "(In)", (unsigned int)code, (Py_ssize_t)row);
}

PyDoc_STRVAR(column_check_doc, "column_check(data, /)\n--\n\nRaises what is wrong with bytes that are no column.");
static PyObject *column_check(PyObject *Py_UNUSED(module), PyObject *data) {
    Py_buffer view;
    uint32_t code;
    if (borrow_column(data, &view) < 0) return NULL;
    Py_BEGIN_ALLOW_THREADS
    code = intaglio_column_check(view.buf, (size_t)view.len);
    Py_END_ALLOW_THREADS
    PyObject *done = code == INTAGLIO_NO_SYMBOL ? no_string_in(&view) : done_or_refused(code);
    PyBuffer_Release(&view);
    return done;
}

PyObject *id_or_refused(uint32_t code, const intaglio_dictionary_id *id) {
    if (code) return refused(code);
    unsigned long long count = id->count, hash0 = id->hash0, hash1 = id->hash1;
    return Py_BuildValue("(NKKKII)", PyBool_FromLong(id->is_text), count, hash0, hash1, (unsigned int)id->shards, (unsigned int)id->shard);
}

int read_id(PyObject *tuple, intaglio_dictionary_id *id) {
    int is_text;
    unsigned long long count, hash0, hash1;
    unsigned int shards, shard;
    if (!PyTuple_Check(tuple)) return PyErr_SetString(PyExc_TypeError, "a dictionary is a tuple"), -1;
    if (!PyArg_ParseTuple(tuple, "pKKKII", &is_text, &count, &hash0, &hash1, &shards, &shard)) return -1;
    *id = (intaglio_dictionary_id){.is_text = is_text, .count = count, .hash0 = hash0, .hash1 = hash1, .shards = shards, .shard = shard};
    return 0;
}

/* What a call of the library says of a column. */
static PyObject *id_by(intaglio_code (*call)(const uint8_t *, size_t, intaglio_dictionary_id *), PyObject *data) {
    Py_buffer view;
    intaglio_dictionary_id id;
    if (borrow_column(data, &view) < 0) return NULL;
    uint32_t code = call(view.buf, (size_t)view.len, &id);
    PyBuffer_Release(&view);
    return id_or_refused(code, &id);
}

PyDoc_STRVAR(column_id_doc, "column_id(data, /)\n--\n\nThe dictionary of a column. Raises what is wrong with the header, or with the number of bytes.");
static PyObject *column_id(PyObject *Py_UNUSED(module), PyObject *data) { return id_by(intaglio_column_id, data); }

PyDoc_STRVAR(column_source_doc, "column_source(data, /)\n--\n\nFrom which dictionary the rows come, which has no shards if they are lines. Raises what column_id raises.");
static PyObject *column_source(PyObject *Py_UNUSED(module), PyObject *data) { return id_by(intaglio_column_source, data); }

PyDoc_STRVAR(column_len_doc, "column_len(data, /)\n--\n\nHow many rows there are.");
static PyObject *column_len(PyObject *Py_UNUSED(module), PyObject *data) {
    Py_buffer view;
    if (borrow_column(data, &view) < 0) return NULL;
    size_t len = intaglio_column_len(view.buf, (size_t)view.len);
    PyBuffer_Release(&view);
    return PyLong_FromSize_t(len);
}

PyDoc_STRVAR(column_width_doc, "column_width(data, /)\n--\n\nHow many bytes a code has.");
static PyObject *column_width(PyObject *Py_UNUSED(module), PyObject *data) {
    Py_buffer view;
    if (borrow_column(data, &view) < 0) return NULL;
    size_t width = intaglio_column_width(view.buf, (size_t)view.len);
    PyBuffer_Release(&view);
    return PyLong_FromSize_t(width);
}

/* Codes */

/* Reads the codes of rows, each a step behind the last. Returns how many there are. */
static size_t read_codes(const Py_buffer *view, Py_ssize_t row, Py_ssize_t step, uint32_t *codes, size_t count) {
    if (step == 1) return intaglio_column_codes(view->buf, (size_t)view->len, (size_t)row, codes, count);
    size_t i = 0;
    /* (numbers without a sign, which wrap around: no column has a row that is negative) */
    while (i < count && intaglio_column_code(view->buf, (size_t)view->len, (size_t)row + i * (size_t)step, codes + i)) i++;
    return i;
}

PyDoc_STRVAR(column_codes_doc, "column_codes(data, row, count, step, /)\n--\n\nAn array('I') of the codes of `count` rows from one on, each a step behind the last.");
static PyObject *column_codes(PyObject *Py_UNUSED(module), PyObject *const *args, Py_ssize_t given) {
    Py_buffer view;
    if (open_rows(args, given, 4, &view) < 0) return NULL;
    Py_ssize_t row = PyLong_AsSsize_t(args[1]), count = PyLong_AsSsize_t(args[2]), step = PyLong_AsSsize_t(args[3]);
    PyObject *array = NULL;
    uint32_t *codes = PyErr_Occurred() ? NULL : PyMem_Malloc(((size_t)count + 1) * sizeof *codes);
    if (!codes && !PyErr_Occurred()) PyErr_NoMemory();
    if (codes) {
        size_t read;
        Py_BEGIN_ALLOW_THREADS
        read = read_codes(&view, row, step, codes, (size_t)count);
        Py_END_ALLOW_THREADS
        array = array_of(codes, read);
    }
    PyMem_Free(codes);
    PyBuffer_Release(&view);
    return array;
}

/* Rows */

/* The rows of a code, with places for so many, or null and an exception. */
static PyObject *rows_within(const Py_buffer *view, uint32_t code, size_t places) {
    uint64_t *rows = PyMem_Malloc((places + 1) * sizeof *rows);
    if (!rows) return PyErr_NoMemory();
    size_t found;
    Py_BEGIN_ALLOW_THREADS
    found = intaglio_column_rows(view->buf, (size_t)view->len, code, rows, places);
    Py_END_ALLOW_THREADS
    PyObject *array = typed_array('Q', rows, (found < places ? found : places) * sizeof *rows);
    PyMem_Free(rows);
    return array;
}

/* How many rows have a code. */
static size_t count_rows(const Py_buffer *view, uint32_t code) {
    size_t count;
    Py_BEGIN_ALLOW_THREADS
    count = intaglio_column_rows(view->buf, (size_t)view->len, code, NULL, 0);
    Py_END_ALLOW_THREADS
    return count;
}

PyDoc_STRVAR(is_missing_doc, "is_missing(object, /)\n--\n\nWhether an object is None, NaN or pandas.NA.");
static PyObject *is_missing_object(PyObject *Py_UNUSED(module), PyObject *object) { return PyBool_FromLong(is_missing(object)); }

PyDoc_STRVAR(column_count_doc, "column_count(data, code, /)\n--\n\nHow many rows have a code.");
static PyObject *column_count(PyObject *Py_UNUSED(module), PyObject *const *args, Py_ssize_t given) {
    Py_buffer view;
    if (open_rows(args, given, 2, &view) < 0) return NULL;
    Py_ssize_t code = read_symbol(args[1]);
    size_t count = PyErr_Occurred() ? 0 : count_rows(&view, (uint32_t)code);
    PyBuffer_Release(&view);
    return PyErr_Occurred() ? NULL : PyLong_FromSize_t(count);
}

PyDoc_STRVAR(column_rows_doc, "column_rows(data, code, /)\n--\n\nAn array('Q') of the rows that have a code.");
static PyObject *column_rows(PyObject *Py_UNUSED(module), PyObject *const *args, Py_ssize_t given) {
    Py_buffer view;
    if (open_rows(args, given, 2, &view) < 0) return NULL;
    Py_ssize_t code = read_symbol(args[1]);
    PyObject *rows = PyErr_Occurred() ? NULL : rows_within(&view, (uint32_t)code, count_rows(&view, (uint32_t)code));
    PyBuffer_Release(&view);
    return rows;
}

/* The counts of so many strings, and how many rows are missing. */
static PyObject *counts_of(const Py_buffer *view, size_t strings) {
    uint64_t *counts = PyMem_Malloc((strings + 1) * sizeof *counts), missing;
    if (!counts) return PyErr_NoMemory();
    uint32_t code;
    Py_BEGIN_ALLOW_THREADS
    code = intaglio_column_counts(view->buf, (size_t)view->len, counts, strings, &missing);
    Py_END_ALLOW_THREADS
    PyObject *array = code ? refused(code) : typed_array('Q', counts, strings * sizeof *counts);
    PyMem_Free(counts);
    return array ? Py_BuildValue("(NK)", array, (unsigned long long)missing) : NULL;
}

PyDoc_STRVAR(column_counts_doc, "column_counts(data, strings, /)\n--\n\nAn array('Q') of how many rows have each of so many symbols, and how many are missing.");
static PyObject *column_counts(PyObject *Py_UNUSED(module), PyObject *const *args, Py_ssize_t given) {
    Py_buffer view;
    if (open_rows(args, given, 2, &view) < 0) return NULL;
    Py_ssize_t strings = PyLong_AsSsize_t(args[1]);
    PyObject *counts = PyErr_Occurred() ? NULL : counts_of(&view, (size_t)strings);
    PyBuffer_Release(&view);
    return counts;
}

/* Writing */

/* Raises NoSymbol for the first code that is neither a symbol nor MISSING, and other errors as they are. */
static PyObject *unwritten(uint32_t refusal, const intaglio_dictionary_id *id, const Codes *codes) {
    size_t i = 0;
    while (i < codes->count && (load_code(codes, i) < id->count || load_code(codes, i) == MISSING)) i++;
    if (refusal != INTAGLIO_NO_SYMBOL || i == codes->count) return refused(refusal);
    return raise_by("no_symbol", "(In)", (unsigned int)load_code(codes, i), (Py_ssize_t)i);
}

/* The bytes of a column, or null and an exception. */
static PyObject *write_column(const intaglio_dictionary_id *id, const Codes *codes) {
    size_t size = intaglio_column_size(id, codes->count);
    PyObject *bytes = PyBytes_FromStringAndSize(NULL, (Py_ssize_t)size);
    if (!bytes) return NULL;
    uint8_t *at = (uint8_t *)PyBytes_AS_STRING(bytes);
    uint32_t refusal;
    Py_BEGIN_ALLOW_THREADS
    refusal = intaglio_column_write(id, codes->at, codes->count, at, size, &size);
    Py_END_ALLOW_THREADS
    if (!refusal) return bytes;
    Py_DECREF(bytes);
    return unwritten(refusal, id, codes);
}

PyDoc_STRVAR(column_bytes_doc, "column_bytes(id, codes, /)\n--\n\nThe bytes of a column of codes of a dictionary.");
static PyObject *column_bytes(PyObject *Py_UNUSED(module), PyObject *args) {
    PyObject *tuple, *given, *bytes;
    intaglio_dictionary_id id;
    Codes codes;
    if (!PyArg_ParseTuple(args, "OO:column_bytes", &tuple, &given) || read_id(tuple, &id) < 0 || open_codes(&codes, given) < 0) return NULL;
    bytes = write_column(&id, &codes);
    close_codes(&codes);
    return bytes;
}

PyMethodDef columns_functions[] = {
    {"column_check", column_check, METH_O, column_check_doc},
    {"column_id", column_id, METH_O, column_id_doc},
    {"column_source", column_source, METH_O, column_source_doc},
    {"column_len", column_len, METH_O, column_len_doc},
    {"column_width", column_width, METH_O, column_width_doc},
    {"column_codes", FAST(column_codes), METH_FASTCALL, column_codes_doc},
    {"is_missing", is_missing_object, METH_O, is_missing_doc},
    {"column_count", FAST(column_count), METH_FASTCALL, column_count_doc},
    {"column_rows", FAST(column_rows), METH_FASTCALL, column_rows_doc},
    {"column_counts", FAST(column_counts), METH_FASTCALL, column_counts_doc},
    {"column_bytes", column_bytes, METH_VARARGS, column_bytes_doc},
    {NULL, NULL, 0, NULL},
};
