/* Frozen tables: functions of their bytes, over which frozen.py has a class. They are read-only, so batches release the interpreter's lock: a
 * block of strings is copied, and then looked up without it. `is_text` says whether the strings are `str`. Those that look strings or symbols up
 * also take the shards of a dictionary in place of the bytes, as open_tables does. */
#include <string.h>
#include "shared.h"

enum {
    /* How many strings are looked up at once without the lock, and how many bytes they may have together: a few milliseconds. */
    BLOCK = 1 << 15,
    BLOCK_BYTES = 1 << 20
};

#define ADVICE_ON_BYTES ": the strings of this table are bytes, and Frozen(.., kind=str) reads those of UTF-8 as str"
#define ADVICE_ON_TEXTS ": the strings of this table are str, and Frozen(.., kind=bytes) reads them as bytes"

static uint32_t kind_of(bool is_text) { return is_text ? INTAGLIO_PACKED_TEXT : INTAGLIO_PACKED_BYTES; }

/* What ends the message about an object of another type. */
static const char *advice_on(bool is_text, PyObject *object) {
    if (is_text) return PyBytes_Check(object) ? ADVICE_ON_TEXTS : "";
    return PyUnicode_Check(object) ? ADVICE_ON_BYTES : "";
}

/* Reads the arguments of a function: the bytes, whether they are of UTF-8 strings, and so many others. */
static int read_arguments(PyObject *const *args, Py_ssize_t count, Py_ssize_t wanted, bool *is_text) {
    if (count != wanted) return PyErr_Format(PyExc_TypeError, "takes %zd arguments (%zd given)", wanted, count), -1;
    int truth = PyObject_IsTrue(args[1]);
    *is_text = truth;
    return truth < 0 ? -1 : 0;
}

/* The same, and borrows the bytes. */
static int open_frozen(PyObject *const *args, Py_ssize_t count, Py_ssize_t wanted, Tables *tables, bool *is_text) {
    return read_arguments(args, count, wanted, is_text) < 0 ? -1 : open_tables(tables, args[0]);
}

/* The whole */

PyDoc_STRVAR(frozen_check_doc, "frozen_check(data, /)\n--\n\nRaises what is wrong with bytes that are no frozen table.");
static PyObject *frozen_check(PyObject *Py_UNUSED(module), PyObject *data) {
    Py_buffer view;
    uint32_t code;
    if (borrow_frozen(data, &view) < 0) return NULL;
    Py_BEGIN_ALLOW_THREADS
    code = intaglio_frozen_check(view.buf, (size_t)view.len);
    Py_END_ALLOW_THREADS
    PyBuffer_Release(&view);
    return done_or_refused(code);
}

PyDoc_STRVAR(frozen_check_header_doc, "frozen_check_header(data, /)\n--\n\nRaises what is wrong with the header of a frozen table, or that its sections aren't there.");
static PyObject *frozen_check_header(PyObject *Py_UNUSED(module), PyObject *data) {
    Py_buffer view;
    const uint8_t none = 0;
    size_t end = 0;
    uint64_t found = 0;
    if (borrow_frozen(data, &view) < 0) return NULL;
    uint32_t code = intaglio_frozen_find_all(view.buf, (size_t)view.len, &none, 0, &end, 0, &found, 0);
    PyBuffer_Release(&view);
    return done_or_refused(code);
}

/* Whether these bytes are a text. */
static bool is_utf8(const uint8_t *at, size_t len) {
    size_t i = 0;
    while (i < len && at[i] < 0x80) i++;
    if (i == len) return true;
    PyObject *text = PyUnicode_DecodeUTF8((const char *)at, (Py_ssize_t)len, NULL);
    Py_XDECREF(text);
    return text;
}

PyDoc_STRVAR(frozen_check_texts_doc, "frozen_check_texts(data, /)\n--\n\nRaises NotUtf8, with its symbol as position, if a string is no text.");
static PyObject *frozen_check_texts(PyObject *Py_UNUSED(module), PyObject *data) {
    Py_buffer view;
    intaglio_spelling out;
    if (borrow_frozen(data, &view) < 0) return NULL;
    intaglio_opened opened = opened_at(view.buf, (size_t)view.len);
    size_t len = intaglio_opened_len(&opened), i = 0;
    while (i < len && intaglio_opened_get(&opened, (uint32_t)i, &out) && is_utf8(out.at, out.len))
        if (++i % TURN == 0) give_turn();
    PyBuffer_Release(&view);
    if (i == len) Py_RETURN_NONE;
    if (PyErr_Occurred() && !PyErr_ExceptionMatches(PyExc_UnicodeDecodeError)) return NULL;
    PyErr_Clear();
    return refused_at(INTAGLIO_NOT_UTF8, (Py_ssize_t)i);
}

PyDoc_STRVAR(frozen_id_doc, "frozen_id(data, /)\n--\n\nWhich dictionary or shard a table is, by its header alone. Raises what is wrong with that.");
static PyObject *frozen_id(PyObject *Py_UNUSED(module), PyObject *data) {
    Py_buffer view;
    intaglio_dictionary_id id;
    if (borrow_frozen(data, &view) < 0) return NULL;
    uint32_t code = intaglio_frozen_id(view.buf, (size_t)view.len, &id);
    PyBuffer_Release(&view);
    return id_or_refused(code, &id);
}

/* One string */

/* The symbol of these bytes, or None. */
static PyObject *symbol_of(const Tables *tables, const uint8_t *at, size_t len) {
    uint32_t symbol;
    return find_string(tables, at, len, &symbol) ? PyLong_FromUnsignedLong(symbol) : Py_NewRef(Py_None);
}

/* The symbol of a native string or None, or null and an exception. */
static PyObject *find_in(const Tables *tables, uint32_t kind, PyObject *string) {
    size_t len;
    const uint8_t *at = spell(kind, string, &len);
    if (at) return symbol_of(tables, at, len);
    return is_absent() ? Py_NewRef(Py_None) : NULL;
}

/* The same, by the bytes of the table that has it if any does. */
static PyObject *find_alone(PyObject *data, uint32_t kind, PyObject *string) {
    Tables tables;
    size_t len;
    const uint8_t *at = spell(kind, string, &len);
    if (!at) return is_absent() ? Py_NewRef(Py_None) : NULL;
    if (open_table_of(&tables, data, at, len) < 0) return NULL;
    PyObject *found = symbol_of(&tables, at, len);
    close_tables(&tables);
    return found;
}

PyDoc_STRVAR(frozen_find_doc, "frozen_find(data, is_text, string, /)\n--\n\nThe symbol of a string, or None.");
static PyObject *frozen_find(PyObject *Py_UNUSED(module), PyObject *const *args, Py_ssize_t count) {
    bool is_text;
    if (read_arguments(args, count, 3, &is_text) < 0) return NULL;
    PyObject *own = native(kind_of(is_text), args[2], -1, advice_on(is_text, args[2]));
    PyObject *found = own ? find_alone(args[0], kind_of(is_text), own) : NULL;
    Py_XDECREF(own);
    return found;
}

/* Tables, and what their strings become. */
typedef struct {
    Tables tables;
    bool is_text;
} Reader;

static PyObject *string_of(const void *of, uint32_t symbol) {
    const Reader *reader = of;
    intaglio_spelling out;
    if (!get_string(&reader->tables, symbol, &out)) return NULL;
    return object_of(reader->is_text, out.at, out.len);
}

/* The string of a number, or null: without an exception if it is no symbol, or with one. */
static PyObject *string_at(const Reader *reader, Py_ssize_t number) {
    return 0 <= number && number <= (Py_ssize_t)UINT32_MAX ? string_of(reader, (uint32_t)number) : NULL;
}

PyDoc_STRVAR(frozen_get_doc, "frozen_get(data, is_text, symbol, /)\n--\n\nThe string of a symbol, or None if there is none.");
static PyObject *frozen_get(PyObject *Py_UNUSED(module), PyObject *const *args, Py_ssize_t count) {
    Reader reader;
    if (read_arguments(args, count, 3, &reader.is_text) < 0) return NULL;
    Py_ssize_t symbol = read_symbol(args[2]);
    if ((symbol < 0 && PyErr_Occurred()) || open_table_at(&reader.tables, args[0], symbol < 0 || symbol > (Py_ssize_t)MISSING ? MISSING : (uint32_t)symbol) < 0) return NULL;
    PyObject *string = string_at(&reader, symbol);
    close_tables(&reader.tables);
    return string || PyErr_Occurred() ? string : Py_NewRef(Py_None);
}

/* Raises NoSymbol for what has no string. */
static PyObject *no_string(const Reader *reader, PyObject *symbol, Py_ssize_t position) {
    size_t len = strings_in(&reader->tables);
    return position < 0 ? raise_by("no_such_symbol", "(On)", symbol, (Py_ssize_t)len) : raise_by("no_such_symbol", "(Onn)", symbol, (Py_ssize_t)len, position);
}

/* A list to be filled, which other threads run meanwhile: until then none finds it. */
static PyObject *new_list(Py_ssize_t count) {
    PyObject *list = PyList_New(count);
    if (list) PyObject_GC_UnTrack(list);
    return list;
}

/* The list, or null if it wasn't filled. */
static PyObject *filled(PyObject *list, int status) {
    if (status < 0) Py_CLEAR(list);
    else PyObject_GC_Track(list);
    return list;
}

/* Puts an object into a list, and lets other threads run from time to time. Returns -1 for null. */
static int put(PyObject *list, Py_ssize_t i, PyObject *object) {
    if (!object) return -1;
    PyList_SET_ITEM(list, i, object);
    if (i % TURN == TURN - 1) give_turn();
    return 0;
}

/* Adds the string of a symbol to a list. Returns -1 and an exception. */
static int get_to(PyObject *list, const Reader *reader, PyObject *number) {
    Py_ssize_t symbol = read_symbol(number), i = PyList_GET_SIZE(list);
    PyObject *string = symbol < 0 && PyErr_Occurred() ? NULL : string_at(reader, symbol);
    if (!string && !PyErr_Occurred()) no_string(reader, number, i);
    int status = string ? PyList_Append(list, string) : -1;
    Py_XDECREF(string);
    if (i % TURN == TURN - 1) give_turn();
    return status;
}

/* The same for the symbols of an iterator. */
static int get_each(PyObject *list, const Reader *reader, PyObject *symbols) {
    PyObject *number;
    int status = 0;
    while (status == 0 && (number = PyIter_Next(symbols))) {
        status = get_to(list, reader, number);
        Py_DECREF(number);
    }
    return status == 0 && PyErr_Occurred() ? -1 : status;
}

PyDoc_STRVAR(frozen_get_all_doc, "frozen_get_all(data, is_text, symbols, /)\n--\n\nThe strings of symbols.");
static PyObject *frozen_get_all(PyObject *Py_UNUSED(module), PyObject *const *args, Py_ssize_t count) {
    Reader reader;
    if (open_frozen(args, count, 3, &reader.tables, &reader.is_text) < 0) return NULL;
    PyObject *symbols = PyObject_GetIter(args[2]), *list = symbols ? new_list(0) : NULL;
    if (list) list = filled(list, get_each(list, &reader, symbols));
    Py_XDECREF(symbols);
    close_tables(&reader.tables);
    return list;
}

/* Puts the strings of symbols, each a step behind the last, into a list. Returns -1 and an exception. */
static int slice_into(PyObject *list, const Reader *reader, size_t first, size_t step) {
    for (Py_ssize_t i = 0; i < PyList_GET_SIZE(list); i++) {
        /* (numbers without a sign, which wrap around) */
        Py_ssize_t symbol = (Py_ssize_t)(first + (size_t)i * step);
        PyObject *string = string_at(reader, symbol);
        if (!string) {
            PyObject *number = PyErr_Occurred() ? NULL : PyLong_FromSsize_t(symbol);
            if (number) no_string(reader, number, -1);
            Py_XDECREF(number);
        }
        if (put(list, i, string) < 0) return -1;
    }
    return 0;
}

PyDoc_STRVAR(frozen_slice_doc, "frozen_slice(data, is_text, start, count, step, /)\n--\n\nThe strings of `count` symbols from one on, each a step behind the last.");
static PyObject *frozen_slice(PyObject *Py_UNUSED(module), PyObject *const *args, Py_ssize_t given) {
    Reader reader;
    if (open_frozen(args, given, 5, &reader.tables, &reader.is_text) < 0) return NULL;
    Py_ssize_t symbol = PyLong_AsSsize_t(args[2]), count = PyLong_AsSsize_t(args[3]), step = PyLong_AsSsize_t(args[4]);
    PyObject *list = PyErr_Occurred() ? NULL : new_list(count);
    if (list) list = filled(list, slice_into(list, &reader, (size_t)symbol, (size_t)step));
    close_tables(&reader.tables);
    return list;
}

/* Batches */

/* How strings are encoded: by tables, with a code for those that aren't there, if they are to have one. */
typedef struct {
    Tables tables;
    bool is_text;
    Stand stand;
    Numbers codes;
    uint64_t *found;
    Group block;
} Encoder;

static void close_encoder(Encoder *encoder) {
    close_tables(&encoder->tables);
    PyMem_Free(encoder->codes.at);
    PyMem_Free(encoder->found);
    PyMem_Free(encoder->block.ends);
    PyMem_Free(encoder->block.places);
    PyMem_Free(encoder->block.bytes);
}

/* Memory for blocks of a batch of so many strings at most, with about so many bytes. */
static int open_block(Encoder *encoder, size_t count, size_t bytes) {
    Group *block = &encoder->block;
    block->most = count < BLOCK ? count + 1 : BLOCK;
    block->room = bytes < BLOCK_BYTES ? bytes + GROUP : BLOCK_BYTES;
    encoder->found = PyMem_Malloc(block->most * sizeof *encoder->found);
    block->ends = PyMem_Malloc(block->most * sizeof *block->ends);
    block->places = PyMem_Malloc(block->most * sizeof *block->places);
    block->bytes = PyMem_Malloc(block->room);
    if (encoder->found && block->ends && block->places && block->bytes) return 0;
    PyErr_NoMemory();
    return -1;
}

/* Looks a block up, without the lock if its bytes stay then. */
static uint32_t find_block(Encoder *encoder, bool stays) {
    const Group *block = &encoder->block;
    uint32_t code;
    PyThreadState *state = stays ? PyEval_SaveThread() : NULL;
    code = find_strings(&encoder->tables, block, encoder->found);
    if (state) PyEval_RestoreThread(state);
    return code;
}

/* Raises Missing for a string of a block. A line that is no text is named as bytes. */
static int missing_in(const Encoder *encoder, const Source *source, size_t i) {
    const Group *block = &encoder->block;
    size_t start = i ? block->ends[i - 1] : 0, len = block->ends[i] - start;
    PyObject *string = object_of(encoder->is_text, block->at + start, len);
    if (!string && PyErr_ExceptionMatches(PyExc_UnicodeDecodeError)) {
        PyErr_Clear();
        string = object_of(false, block->at + start, len);
    }
    if (string) raise_by("Missing", "(Nn)", string, place_of(source, block->places[i]));
    return -1;
}

/* Encodes the strings that come next, as many as a block has. Returns what comes behind them, or FAILED. */
static Next encode_block(Encoder *encoder, Source *source) {
    Next next = join(source, &encoder->block);
    const Group *block = &encoder->block;
    /* An exception of the item behind the block waits until that item comes first. */
    if (block->count && next == NOT_SPELLED) PyErr_Clear();
    if (reserve_numbers(&encoder->codes, (size_t)source->position) < 0) return FAILED;
    uint32_t code = block->count ? find_block(encoder, block->at == block->bytes || source->is_lines) : INTAGLIO_DONE;
    if (code) return refused(code), FAILED;
    for (size_t i = 0; i < block->count; i++) {
        bool is_found = encoder->found[i] != INTAGLIO_ABSENT;
        if (!is_found && !encoder->stand.is_given) return missing_in(encoder, source, i), FAILED;
        encoder->codes.at[block->places[i]] = is_found ? (uint32_t)encoder->found[i] : encoder->stand.code;
    }
    return block->count && next != END ? STRING : next;
}

/* Encodes an item that isn't native, or that has no UTF-8, with an exception, and is in no table. */
static Next encode_item(Encoder *encoder, Source *source, Next next) {
    Py_ssize_t i = source->position, place = place_of(source, i);
    PyObject *item = Py_NewRef(source->items[i] ? source->items[i] : Py_None), *own = NULL, *symbol = NULL;
    if (next == NOT_NATIVE) own = native(source->kind, item, place, encoder->stand.is_given || !is_missing(item) ? advice_on(encoder->is_text, item) : ADVICE_ON_MISSING);
    else if (is_absent()) symbol = Py_NewRef(Py_None);
    if (own) symbol = find_in(&encoder->tables, source->kind, own);
    next = symbol ? STRING : FAILED;
    if (symbol == Py_None && !encoder->stand.is_given) raise_by("Missing", "(On)", own ? own : item, place), next = FAILED;
    else if (symbol) encoder->codes.at[i] = symbol == Py_None ? encoder->stand.code : (uint32_t)PyLong_AsUnsignedLong(symbol);
    Py_XDECREF(symbol);
    Py_XDECREF(own);
    Py_DECREF(item);
    advance(source);
    return next;
}

/* Encodes all strings. Returns -1 and an exception. */
static int encode_source(Encoder *encoder, Source *source) {
    Next next = STRING;
    while (next == STRING) {
        if (refresh_items(source) < 0) return -1;
        next = encode_block(encoder, source);
        if (next == NOT_NATIVE || next == NOT_SPELLED) next = encode_item(encoder, source, next);
    }
    return next == END ? 0 : -1;
}

/* Gives each item the code of what is missing: those that are skipped keep it. */
static int open_codes_of(Encoder *encoder, const Source *source) {
    if (source->is_lines) return 0;
    if (reserve_numbers(&encoder->codes, (size_t)source->count) < 0) return -1;
    for (Py_ssize_t i = 0; source->skips && i < source->count; i++) encoder->codes.at[i] = encoder->stand.code;
    return 0;
}

/* Encodes the strings of an open source, and closes it. */
static int encode_and_close(Encoder *encoder, Source *source) {
    size_t count = (size_t)(source->is_lines ? source->view.len : source->count);
    size_t bytes = source->is_lines ? count : (count < BLOCK ? count * LINE : BLOCK_BYTES);
    int status = open_codes_of(encoder, source) < 0 || open_block(encoder, count, bytes) < 0 ? -1 : encode_source(encoder, source);
    encoder->codes.count = (size_t)source->position;
    if (status == 0) spread(source, &encoder->codes, encoder->stand.code);
    close_source(source);
    return status;
}

/* Encodes the items of an iterable. */
static int encode_items(Encoder *encoder, PyObject *strings, bool skips) {
    Source source;
    int status = open_items(&source, kind_of(encoder->is_text), strings, skips);
    return status < 0 ? close_source(&source), -1 : encode_and_close(encoder, &source);
}

/* Puts codes into a list, with None for MISSING. Returns -1 and an exception. */
static int numbers_into(PyObject *list, const Numbers *codes) {
    for (size_t i = 0; i < codes->count; i++) {
        uint32_t code = codes->at[i];
        if (put(list, (Py_ssize_t)i, code == MISSING ? Py_NewRef(Py_None) : PyLong_FromUnsignedLong(code)) < 0) return -1;
    }
    return 0;
}

PyDoc_STRVAR(frozen_find_all_doc, "frozen_find_all(data, is_text, strings, /)\n--\n\nThe symbol of each string, or None.");
static PyObject *frozen_find_all(PyObject *Py_UNUSED(module), PyObject *const *args, Py_ssize_t count) {
    Encoder encoder = {.stand = {.is_given = true, .code = MISSING}};
    if (open_frozen(args, count, 3, &encoder.tables, &encoder.is_text) < 0) return NULL;
    bool is_done = encode_items(&encoder, args[2], false) == 0;
    PyObject *list = is_done ? new_list((Py_ssize_t)encoder.codes.count) : NULL;
    if (list) list = filled(list, numbers_into(list, &encoder.codes));
    close_encoder(&encoder);
    return list;
}

PyDoc_STRVAR(frozen_encode_doc, "frozen_encode(data, is_text, strings, missing, /)\n--\n\nAn array('I') of the code of each string.");
static PyObject *frozen_encode(PyObject *Py_UNUSED(module), PyObject *const *args, Py_ssize_t count) {
    Encoder encoder = {0};
    if (open_frozen(args, count, 4, &encoder.tables, &encoder.is_text) < 0) return NULL;
    bool is_done = read_stand(args[3], &encoder.stand) == 0 && encode_items(&encoder, args[2], encoder.stand.is_given) == 0;
    PyObject *codes = is_done ? array_of(encoder.codes.at, encoder.codes.count) : NULL;
    close_encoder(&encoder);
    return codes;
}

PyDoc_STRVAR(frozen_encode_into_doc, "frozen_encode_into(data, is_text, strings, out, missing, /)\n--\n\nWrites the code of each string to a buffer.");
static PyObject *frozen_encode_into(PyObject *Py_UNUSED(module), PyObject *const *args, Py_ssize_t count) {
    Encoder encoder = {0};
    Py_buffer out;
    PyObject *written = NULL;
    if (open_frozen(args, count, 5, &encoder.tables, &encoder.is_text) < 0) return NULL;
    if (read_stand(args[4], &encoder.stand) == 0 && borrow_codes(args[3], &out) == 0) {
        if (encode_items(&encoder, args[2], encoder.stand.is_given) == 0) written = write_codes(&out, encoder.codes.at, encoder.codes.count);
        PyBuffer_Release(&out);
    }
    close_encoder(&encoder);
    return written;
}

PyDoc_STRVAR(frozen_encode_lines_doc, "frozen_encode_lines(data, is_text, lines, missing, /)\n--\n\nAn array('I') of the code of each line of a buffer.");
static PyObject *frozen_encode_lines(PyObject *Py_UNUSED(module), PyObject *const *args, Py_ssize_t count) {
    Encoder encoder = {0};
    Source source;
    PyObject *codes = NULL;
    if (open_frozen(args, count, 4, &encoder.tables, &encoder.is_text) < 0) return NULL;
    if (read_stand(args[3], &encoder.stand) == 0 && open_lines(&source, kind_of(encoder.is_text), args[2]) == 0)
        if (encode_and_close(&encoder, &source) == 0) codes = array_of(encoder.codes.at, encoder.codes.count);
    close_encoder(&encoder);
    return codes;
}

PyDoc_STRVAR(frozen_decode_doc, "frozen_decode(data, is_text, codes, missing=.., /)\n--\n\nThe string of each code.");
static PyObject *frozen_decode(PyObject *Py_UNUSED(module), PyObject *const *args, Py_ssize_t count) {
    Reader reader;
    if (open_frozen(args, count, count == 4 ? 4 : 3, &reader.tables, &reader.is_text) < 0) return NULL;
    PyObject *list = decode_by(&reader, string_of, strings_in(&reader.tables), true, args[2], count == 4 ? args[3] : NULL);
    close_tables(&reader.tables);
    return list;
}

PyMethodDef frozen_functions[] = {
    {"frozen_check", frozen_check, METH_O, frozen_check_doc},
    {"frozen_check_header", frozen_check_header, METH_O, frozen_check_header_doc},
    {"frozen_check_texts", frozen_check_texts, METH_O, frozen_check_texts_doc},
    {"frozen_id", frozen_id, METH_O, frozen_id_doc},
    {"frozen_find", FAST(frozen_find), METH_FASTCALL, frozen_find_doc},
    {"frozen_find_all", FAST(frozen_find_all), METH_FASTCALL, frozen_find_all_doc},
    {"frozen_get", FAST(frozen_get), METH_FASTCALL, frozen_get_doc},
    {"frozen_get_all", FAST(frozen_get_all), METH_FASTCALL, frozen_get_all_doc},
    {"frozen_slice", FAST(frozen_slice), METH_FASTCALL, frozen_slice_doc},
    {"frozen_encode", FAST(frozen_encode), METH_FASTCALL, frozen_encode_doc},
    {"frozen_encode_into", FAST(frozen_encode_into), METH_FASTCALL, frozen_encode_into_doc},
    {"frozen_encode_lines", FAST(frozen_encode_lines), METH_FASTCALL, frozen_encode_lines_doc},
    {"frozen_decode", FAST(frozen_decode), METH_FASTCALL, frozen_decode_doc},
    {NULL, NULL, 0, NULL},
};
