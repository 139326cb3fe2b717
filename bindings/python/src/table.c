/* intaglio._table: the tables, over libintaglio.
 *
 * Threads. A call of the library on a table holds the interpreter's lock, so there is one at a time, and its results go to variables of the
 * caller's own. A batch of internings or of look-ups runs no code of Python's between its first call of the library and its last:
 * contents become str or bytes objects before, results become objects after. So no other thread sees a part of it. Slices and
 * get_all copy string by string. An interpreter without that lock is refused. Frozen tables are read-only: frozen.c says when they release it.
 * A table that no other thread knows, such as that of merge, is interned into and frozen without it.
 */
#include <stdarg.h>
#include <stddef.h>
#include <string.h>
#include <unistd.h>
#include "shared.h"
#include <structmember.h>

enum {
    DEFAULT_CAPACITY = 4096,
    /* Strings of up to this many bytes are copied through the stack. */
    NEAR = 256,
    /* How many keys are tried to freeze a table in memory. */
    FREEZINGS = 8
};

typedef struct {
    PyObject_HEAD
    intaglio_table handle;
    uint32_t kind;
    /* The limit that was passed, or 0 if there was none. */
    size_t limit;
    PyObject *weak;
} Table;

static Py_ssize_t table_len(Table *self) { return (Py_ssize_t)intaglio_len(&self->handle); }

/* Single strings */

/* Returns -1 and NoTable if the table was closed, which an empty batch tells. */
static int check_open(Table *self) {
    const uint8_t none = 0;
    size_t end = 0;
    uint64_t found = 0;
    uint32_t code = intaglio_check_all(&self->handle, &none, 0, &end, 0, &found, 0);
    if (code) refused(code);
    return code ? -1 : 0;
}

/* Looks a native content up. Returns 1 and its symbol, 0 if it isn't in the table, or -1 and an exception. */
static inline int find_native(Table *self, PyObject *content, uint32_t *symbol) {
    size_t len;
    const uint8_t *at = spell(self->kind, content, &len);
    if (at) return intaglio_check_interned(&self->handle, at, len, symbol);
    return is_absent() ? 0 : -1;
}

/* The same for any content. A native one needs no reference beside the caller's, since no code of Python's runs meanwhile; to count
 * one would write to the object. */
static int find(Table *self, PyObject *content, uint32_t *symbol) {
    if (is_native(self->kind, content)) return find_native(self, content, symbol);
    PyObject *own = native(self->kind, content, -1, "");
    int found = own ? find_native(self, own, symbol) : -1;
    Py_XDECREF(own);
    return found;
}

/* Stores the string of a symbol as an object. Returns 1, 0 if there is no such symbol, or -1 and an exception. */
static int lookup(Table *self, uint32_t symbol, PyObject **content) {
    uint8_t near[NEAR], *at = near;
    size_t len;
    if (!intaglio_copy(&self->handle, symbol, near, NEAR, &len)) return 0;
    if (len > NEAR) {
        at = PyMem_Malloc(len);
        if (!at) {
            PyErr_NoMemory();
            return -1;
        }
        intaglio_copy(&self->handle, symbol, at, len, &len);
    }
    *content = object_of(has_texts(self->kind), at, len - (self->kind == INTAGLIO_CSTR));
    if (at != near) PyMem_Free(at);
    return *content ? 1 : -1;
}

/* The same for a number, with NoSymbol for one that is no symbol. */
static PyObject *lookup_or_raise(Table *self, Py_ssize_t symbol) {
    PyObject *content;
    int found = 0 <= symbol && symbol <= (Py_ssize_t)UINT32_MAX ? lookup(self, (uint32_t)symbol, &content) : 0;
    if (found == 0) raise_by("no_such_symbol", "(nn)", symbol, table_len(self));
    return found == 1 ? content : NULL;
}

/* Numbers */

/* Reads a number of strings. Returns -1 and an exception; OverflowError if it is negative or above 2**64 - 1. */
static int read_number(PyObject *number, size_t *size) {
    PyObject *whole = PyNumber_Index(number);
    if (!whole) return -1;
    *size = PyLong_AsSize_t(whole);
    Py_DECREF(whole);
    return *size == (size_t)-1 && PyErr_Occurred() ? -1 : 0;
}

/* The same, with TooLarge in place of OverflowError. */
static int read_size(PyObject *number, size_t *size) {
    if (read_number(number, size) == 0) return 0;
    if (PyErr_ExceptionMatches(PyExc_OverflowError)) {
        PyErr_Clear();
        raise_by("no_size", "(O)", number);
    }
    return -1;
}

Py_ssize_t read_symbol(PyObject *number) {
    Py_ssize_t symbol = PyNumber_AsSsize_t(number, NULL);
    return symbol < 0 ? -1 : symbol;
}

static int read_key(PyObject *number, uint64_t *key) {
    *key = PyLong_AsUnsignedLongLong(number);
    if (*key != UINT64_MAX || !PyErr_Occurred()) return 0;
    PyErr_SetString(PyErr_ExceptionMatches(PyExc_OverflowError) ? PyExc_ValueError : PyExc_TypeError, "the keys are two integers from 0 to 2**64 - 1");
    return -1;
}

/* The keys that were passed, or random ones. */
static int read_keys(PyObject *passed, uint64_t keys[2]) {
    if (passed == Py_None) {
        if (getentropy(keys, 2 * sizeof *keys) == 0) return 0;
        PyErr_SetFromErrno(PyExc_OSError);
        return -1;
    }
    PyObject *pair = PySequence_Tuple(passed);
    int status = -1;
    if (pair && PyTuple_GET_SIZE(pair) != 2) PyErr_SetString(PyExc_ValueError, "the keys are two integers from 0 to 2**64 - 1");
    else if (pair && read_key(PyTuple_GET_ITEM(pair, 0), &keys[0]) == 0) status = read_key(PyTuple_GET_ITEM(pair, 1), &keys[1]);
    Py_XDECREF(pair);
    return status;
}

/* Batches */

/* Calls the library on each of the strings that come next, as many as a group has. */
static Next intern_singly(Table *self, Source *source, Group *group, uint32_t *numbers, uint32_t *code) {
    for (group->count = 0; group->count < GROUP;) {
        size_t len;
        const uint8_t *at;
        Next next = peek(source, &at, &len);
        if (next == STRING) {
            *code = intaglio_intern(&self->handle, at, len, numbers + source->position);
            if (*code) return STRING;
            group->count++;
        } else if (next != SKIPPED) return next;
        advance(source);
    }
    return STRING;
}

/* The same in one call of the library. */
static Next intern_group(Table *self, Source *source, Group *group, uint32_t *numbers, uint32_t *code) {
    uint32_t symbols[GROUP] = {0};
    Next next = join(source, group);
    if (group->count == 0) return next;
    *code = intaglio_intern_all(&self->handle, group->at, group->len, group->ends, group->count, symbols, group->count);
    for (size_t i = 0; i < group->count; i++) numbers[group->places[i]] = symbols[i];
    return next;
}

/* The position of the string that a code is about: that which comes next if they were interned one by one, or else one of the group, which
 * are interned again until one is refused. The caller drops those. */
static Py_ssize_t refused_place(Table *self, const Source *source, const Group *group, bool one_by_one) {
    if (one_by_one) return source->position;
    size_t start = 0;
    for (size_t i = 0; i < group->count; start = group->ends[i++]) {
        uint32_t symbol;
        if (intaglio_intern(&self->handle, group->at + start, group->ends[i] - start, &symbol)) return group->places[i];
    }
    return -1;
}

/* Interns all strings or none. After a group in which most were new, the next is interned one by one: a string that isn't there needs few
 * cache lines, so that a group gains less than it costs. No number may be MISSING if they are codes. */
static Next intern_source(Table *self, Source *source, Group *group, Numbers *numbers, bool are_codes) {
    uint32_t code = INTAGLIO_DONE;
    Next next = STRING;
    size_t mark = intaglio_len(&self->handle), before = mark;
    bool are_new = mark == 0, one_by_one = false;
    while (next == STRING && !code) {
        if (source->is_lines && reserve_numbers(numbers, (size_t)source->position + GROUP) < 0) {
            next = FAILED;
            break;
        }
        one_by_one = are_new;
        next = (one_by_one ? intern_singly : intern_group)(self, source, group, numbers->at, &code);
        size_t after = intaglio_len(&self->handle);
        are_new = after - before > group->count / 2;
        before = after;
    }
    /* A code is of a string before that at which the group ends. */
    if (code) PyErr_Clear();
    Py_ssize_t place = code ? refused_place(self, source, group, one_by_one) : -1;
    if (!code && are_codes && before > MISSING) code = INTAGLIO_FULL;
    if (next != END || code) (void)!intaglio_take_back(&self->handle, mark);
    if (code) refused_at(code, place_of(source, place));
    else if (next == NOT_SPELLED) not_spelled(place_of(source, source->position));
    return code || next == NOT_SPELLED ? FAILED : next;
}

/* The collector is off meanwhile, since it may run code of Python's, and with it other threads. */
static Next intern_undisturbed(Table *self, Source *source, Numbers *numbers, bool are_codes) {
    size_t ends[GROUP];
    Py_ssize_t places[GROUP];
    uint8_t bytes[GROUP_BYTES];
    Group group = {.most = GROUP, .room = GROUP_BYTES, .ends = ends, .places = places, .bytes = bytes};
    int collects = PyGC_Disable();
    Next next = intern_source(self, source, &group, numbers, are_codes);
    if (collects) PyGC_Enable();
    return next;
}

/* What becomes of the strings of a batch: their numbers are codes, with one for what is missing if that was passed; there is room for so many. */
typedef struct {
    bool are_codes;
    Stand stand;
    size_t most;
} Wanted;

static const Wanted SYMBOLS = {.most = PY_SSIZE_T_MAX};

/* Whether there is room for the numbers of all items. */
static int check_count(const Source *source, const Wanted *wanted) {
    if (rows_of(source) <= wanted->most) return 0;
    refused(INTAGLIO_NO_SPACE);
    return -1;
}

/* Interns the items of a source. Those that are skipped keep their number, which is set first. */
static Next intern_opened(Table *self, Source *source, const Wanted *wanted, Numbers *numbers) {
    if (check_count(source, wanted) < 0 || reserve_numbers(numbers, (size_t)source->count) < 0) return FAILED;
    for (Py_ssize_t i = 0; source->skips && i < source->count; i++) numbers->at[i] = wanted->stand.code;
    return intern_undisturbed(self, source, numbers, wanted->are_codes);
}

/* Interns all items of an iterable or none. If some aren't native, it begins again with a list in which all are: that is rarer than one more
 * pass over the objects would be dear. */
static int intern_items(Table *self, PyObject *contents, const Wanted *wanted, Numbers *numbers) {
    Source source;
    Next next = open_items(&source, self->kind, contents, wanted->stand.is_given) < 0 ? FAILED : intern_opened(self, &source, wanted, numbers);
    if (next == NOT_NATIVE) next = convert_items(&source, wanted->are_codes && !wanted->stand.is_given) < 0 ? FAILED : intern_opened(self, &source, wanted, numbers);
    numbers->count = (size_t)source.position;
    if (next == END) spread(&source, numbers, wanted->stand.code);
    close_source(&source);
    return next == END ? 0 : -1;
}

/* Looks up as many strings as a group has. Those that aren't there, and what is skipped, keep the number of what is absent. */
static Next find_group(Table *self, Source *source, Group *group, uint64_t *numbers) {
    uint64_t found[GROUP] = {0};
    Next next = join(source, group);
    if (group->count == 0) return next;
    uint32_t code = intaglio_check_all(&self->handle, group->at, group->len, group->ends, group->count, found, group->count);
    if (code) return refused(code), FAILED;
    for (size_t i = 0; i < group->count; i++) numbers[group->places[i]] = found[i];
    return next;
}

static Next find_singly(Table *self, Source *source, Group *group, uint64_t *numbers) {
    for (group->count = 0; group->count < GROUP;) {
        size_t len;
        const uint8_t *at;
        uint32_t symbol;
        Next next = peek(source, &at, &len);
        if (next == STRING) {
            group->places[group->count++] = source->position;
            if (intaglio_check_interned(&self->handle, at, len, &symbol)) numbers[source->position] = symbol;
        } else if (next != SKIPPED) return next;
        advance(source);
    }
    return STRING;
}

static bool are_most_absent(const Group *group, const uint64_t *numbers) {
    size_t absent = 0;
    for (size_t i = 0; i < group->count; i++) absent += numbers[group->places[i]] == INTAGLIO_ABSENT;
    return absent > group->count / 2;
}

/* Looks each string up. After a group in which most were absent, the next is looked up one by one, as in intern_source. */
static Next find_source(Table *self, Source *source, uint64_t *numbers) {
    size_t ends[GROUP];
    Py_ssize_t places[GROUP];
    uint8_t bytes[GROUP_BYTES];
    Group group = {.most = GROUP, .room = GROUP_BYTES, .ends = ends, .places = places, .bytes = bytes};
    int collects = PyGC_Disable();
    bool are_absent = false;
    Next next = STRING;
    while (next == STRING) {
        next = (are_absent ? find_singly : find_group)(self, source, &group, numbers);
        are_absent = next == STRING && are_most_absent(&group, numbers);
        if (next != NOT_SPELLED) continue;
        next = is_absent() ? STRING : FAILED;
        advance(source);
    }
    if (collects) PyGC_Enable();
    return next;
}

/* Numbers of the items of a source, all of what is absent at first, or null and an exception. */
static Next find_opened(Table *self, Source *source, const Wanted *wanted, uint64_t **numbers) {
    size_t size = ((size_t)source->count + 1) * sizeof **numbers;
    PyMem_Free(*numbers);
    *numbers = NULL;
    if (check_open(self) < 0 || check_count(source, wanted) < 0) return FAILED;
    *numbers = PyMem_Malloc(size);
    if (!*numbers) return PyErr_NoMemory(), FAILED;
    memset(*numbers, 0xff, size);
    return find_source(self, source, *numbers);
}

/* Looks up all items of an iterable. Stores a block with the number of each, and how many there are. */
static int find_items(Table *self, PyObject *contents, const Wanted *wanted, uint64_t **numbers, size_t *count) {
    Source source;
    *numbers = NULL;
    Next next = open_items(&source, self->kind, contents, wanted->stand.is_given) < 0 ? FAILED : find_opened(self, &source, wanted, numbers);
    if (next == NOT_NATIVE) next = convert_items(&source, wanted->are_codes && !wanted->stand.is_given) < 0 ? FAILED : find_opened(self, &source, wanted, numbers);
    *count = rows_of(&source);
    if (next == END && spread_found(&source, numbers) < 0) next = FAILED;
    close_source(&source);
    return next == END ? 0 : -1;
}

/* Methods */

/* Interns a native content. */
static inline PyObject *intern_native(Table *self, PyObject *content) {
    size_t len;
    uint32_t symbol;
    const uint8_t *at = spell(self->kind, content, &len);
    if (!at) return not_spelled(-1);
    uint32_t code = intaglio_intern(&self->handle, at, len, &symbol);
    return code ? refused(code) : PyLong_FromUnsignedLong(symbol);
}

PyDoc_STRVAR(intern_doc, "intern($self, content, /)\n--\n\n"
"The symbol of the string, which is stored if it is new. Raises Full, NoMemory, NotUtf8, InnerZero, NoTable.");
static PyObject *table_intern(Table *self, PyObject *content) {
    if (is_native(self->kind, content)) return intern_native(self, content);
    PyObject *own = native(self->kind, content, -1, "");
    PyObject *symbol = own ? intern_native(self, own) : NULL;
    Py_XDECREF(own);
    return symbol;
}

PyDoc_STRVAR(check_interned_doc, "check_interned($self, content, /)\n--\n\n"
"The symbol of the string, or None if it isn't in the table.");
static PyObject *table_check_interned(Table *self, PyObject *content) {
    uint32_t symbol;
    switch (find(self, content, &symbol)) {
        case 1: return PyLong_FromUnsignedLong(symbol);
        case 0: Py_RETURN_NONE;
        default: return NULL;
    }
}

PyDoc_STRVAR(intern_all_doc, "intern_all($self, contents, /)\n--\n\n"
"Interns all strings or none, and returns a list of their symbols. Raises what intern raises, with the position of the string.");
static PyObject *table_intern_all(Table *self, PyObject *contents) {
    Numbers numbers = {0};
    bool is_done = intern_items(self, contents, &SYMBOLS, &numbers) == 0;
    PyObject *list = is_done ? PyList_New((Py_ssize_t)numbers.count) : NULL;
    for (size_t i = 0; list && i < numbers.count; i++) {
        PyObject *number = PyLong_FromUnsignedLong(numbers.at[i]);
        if (number) PyList_SET_ITEM(list, (Py_ssize_t)i, number);
        else Py_CLEAR(list);
    }
    PyMem_Free(numbers.at);
    return list;
}

PyDoc_STRVAR(encode_doc, "encode($self, strings, /, *, missing=None)\n--\n\n"
"Interns all strings or none, and returns their codes, which are their symbols, as an array('I'). With `missing`, such as MISSING, that is\n"
"the code of None, NaN and pandas.NA; without it they raise TypeError. The strings are in any iterable: numpy's arrays of objects and\n"
"pandas' columns of objects are read where they are, and of a Categorical its categories. Raises what intern raises, with the position\n"
"of the string.\n\n"
">>> table = SymbolTable()\n"
">>> table.encode([\"b\", None, \"a\", \"b\"], missing=MISSING)\n"
"array('I', [0, 4294967295, 1, 0])");
static PyObject *table_encode(Table *self, PyObject *args, PyObject *named) {
    static char *names[] = {"", "missing", NULL};
    PyObject *contents, *missing = Py_None;
    Wanted wanted = {.are_codes = true, .most = PY_SSIZE_T_MAX};
    Numbers numbers = {0};
    if (!PyArg_ParseTupleAndKeywords(args, named, "O|$O:encode", names, &contents, &missing) || read_stand(missing, &wanted.stand) < 0) return NULL;
    PyObject *array = intern_items(self, contents, &wanted, &numbers) == 0 ? array_of(numbers.at, numbers.count) : NULL;
    PyMem_Free(numbers.at);
    return array;
}

/* The arguments of a call that writes codes to a buffer, which is borrowed before the first string is interned. */
static int open_out(PyObject *args, PyObject *named, const char *format, PyObject **contents, Wanted *wanted, Py_buffer *view) {
    static char *names[] = {"", "", "missing", NULL};
    PyObject *out, *missing = Py_None;
    *wanted = (Wanted){.are_codes = true};
    if (!PyArg_ParseTupleAndKeywords(args, named, format, names, contents, &out, &missing) || read_stand(missing, &wanted->stand) < 0 || borrow_codes(out, view) < 0) return -1;
    wanted->most = (size_t)view->len / sizeof(uint32_t);
    return 0;
}

PyDoc_STRVAR(intern_into_doc, "intern_into($self, strings, out, /, *, missing=None)\n--\n\n"
"Interns all strings or none, writes their codes to the start of a buffer of integers of 4 bytes, such as array('I') or a numpy array of\n"
"uint32 or int32, and returns how many there are. Raises what encode raises, and NoSpace if the buffer is too short. The buffer is\n"
"unchanged if it raises. encode_into is the same.");
PyDoc_STRVAR(encode_into_doc, "encode_into($self, strings, out, /, *, missing=None)\n--\n\nThe same as intern_into: the name that a Frozen has too.");
static PyObject *table_intern_into(Table *self, PyObject *args, PyObject *named) {
    PyObject *contents, *written = NULL;
    Wanted wanted;
    Py_buffer view;
    Numbers numbers = {0};
    if (open_out(args, named, "OO|$O:intern_into", &contents, &wanted, &view) < 0) return NULL;
    if (intern_items(self, contents, &wanted, &numbers) == 0) written = write_codes(&view, numbers.at, numbers.count);
    PyMem_Free(numbers.at);
    PyBuffer_Release(&view);
    return written;
}

PyDoc_STRVAR(intern_lines_doc, "intern_lines($self, lines, /)\n--\n\n"
"Interns all lines of a buffer or none, and returns their codes as an array('I'). No object is made of a line. A line ends before b\"\\n\",\n"
"and the last one needs none; those of a table of str are UTF-8. The buffer must not change meanwhile. Raises what intern raises, with the\n"
"position of the line. encode_lines is the same.\n\n"
">>> SymbolTable().intern_lines(b\"b\\na\\nb\\n\")\n"
"array('I', [0, 1, 0])");
PyDoc_STRVAR(encode_lines_doc, "encode_lines($self, lines, /)\n--\n\nThe same as intern_lines: the name that a Frozen has too.");
static PyObject *table_intern_lines(Table *self, PyObject *buffer) {
    Source source;
    Numbers numbers = {0};
    if (open_lines(&source, self->kind, buffer) < 0) return NULL;
    Next next = intern_undisturbed(self, &source, &numbers, true);
    PyObject *array = next == END ? array_of(numbers.at, (size_t)source.position) : NULL;
    close_source(&source);
    PyMem_Free(numbers.at);
    return array;
}

PyDoc_STRVAR(check_all_doc, "check_all($self, contents, /)\n--\n\n"
"A list of the symbols of the strings, with None for those that aren't in the table. Raises NoTable.");
static PyObject *table_check_all(Table *self, PyObject *contents) {
    uint64_t *found;
    size_t count;
    bool is_done = find_items(self, contents, &SYMBOLS, &found, &count) == 0;
    PyObject *list = is_done ? PyList_New((Py_ssize_t)count) : NULL;
    for (size_t i = 0; list && i < count; i++) {
        PyObject *number = found[i] == INTAGLIO_ABSENT ? Py_NewRef(Py_None) : PyLong_FromUnsignedLongLong(found[i]);
        if (number) PyList_SET_ITEM(list, (Py_ssize_t)i, number);
        else Py_CLEAR(list);
    }
    PyMem_Free(found);
    return list;
}

/* Makes codes of what was found, in the same memory. */
static uint32_t *codes_of(uint64_t *found, size_t count, const Stand *stand) {
    char *at = (char *)found;
    for (size_t i = 0; i < count; i++) {
        uint64_t number;
        memcpy(&number, at + i * sizeof number, sizeof number);
        uint32_t code = number != INTAGLIO_ABSENT ? (uint32_t)number : (stand->is_given ? stand->code : MISSING);
        memcpy(at + i * sizeof code, &code, sizeof code);
    }
    return (uint32_t *)found;
}

PyDoc_STRVAR(check_into_doc, "check_into($self, strings, out, /, *, missing=None)\n--\n\n"
"Writes the codes of the strings to the start of a buffer of integers of 4 bytes, with MISSING for those that aren't in the table, and\n"
"returns how many there are. With `missing` that is their code, and that of None, NaN and pandas.NA. Raises NoSpace if the buffer is too\n"
"short, NoTable. The buffer is unchanged if it raises.");
static PyObject *table_check_into(Table *self, PyObject *args, PyObject *named) {
    PyObject *contents, *written = NULL;
    Wanted wanted;
    Py_buffer view;
    uint64_t *found;
    size_t count;
    if (open_out(args, named, "OO|$O:check_into", &contents, &wanted, &view) < 0) return NULL;
    if (intaglio_len(&self->handle) > MISSING) refused(INTAGLIO_FULL);
    else {
        if (find_items(self, contents, &wanted, &found, &count) == 0) written = write_codes(&view, codes_of(found, count, &wanted.stand), count);
        PyMem_Free(found);
    }
    PyBuffer_Release(&view);
    return written;
}

/* Whether a number is one of a symbol, which is then read. */
static bool is_symbol(Py_ssize_t number) { return 0 <= number && number <= (Py_ssize_t)UINT32_MAX; }

PyDoc_STRVAR(get_doc, "get($self, symbol, default=None, /)\n--\n\n"
"The string of a symbol, or the default if there is none.");
static PyObject *table_get(Table *self, PyObject *const *args, Py_ssize_t count) {
    if (count != 1 && count != 2) return PyErr_Format(PyExc_TypeError, "get takes a symbol and a default (%zd given)", count);
    PyObject *content;
    Py_ssize_t symbol = read_symbol(args[0]);
    if (symbol < 0 && PyErr_Occurred()) return NULL;
    int found = is_symbol(symbol) ? lookup(self, (uint32_t)symbol, &content) : 0;
    if (found == 0) return Py_NewRef(count == 2 ? args[1] : Py_None);
    return found == 1 ? content : NULL;
}

/* The string of a number, or null and an exception. */
static PyObject *get_at(Table *self, PyObject *number, Py_ssize_t position) {
    PyObject *content;
    Py_ssize_t symbol = read_symbol(number);
    if (symbol < 0 && PyErr_Occurred()) return NULL;
    int found = is_symbol(symbol) ? lookup(self, (uint32_t)symbol, &content) : 0;
    if (found == 0) raise_by("no_such_symbol", "(Onn)", number, table_len(self), position);
    return found == 1 ? content : NULL;
}

PyDoc_STRVAR(get_all_doc, "get_all($self, symbols, /)\n--\n\n"
"A list of the strings of symbols: any iterable of numbers. Raises NoSymbol, with its position, NoTable.");
static PyObject *table_get_all(Table *self, PyObject *symbols) {
    PyObject *own = PySequence_Tuple(symbols);
    PyObject *list = own && check_open(self) == 0 ? PyList_New(PyTuple_GET_SIZE(own)) : NULL;
    for (Py_ssize_t i = 0; list && i < PyTuple_GET_SIZE(own); i++) {
        PyObject *content = get_at(self, PyTuple_GET_ITEM(own, i), i);
        if (content) PyList_SET_ITEM(list, i, content);
        else Py_CLEAR(list);
    }
    Py_XDECREF(own);
    return list;
}

static PyObject *string_of(const void *of, uint32_t symbol) {
    PyObject *content;
    return lookup((Table *)of, symbol, &content) == 1 ? content : NULL;
}

PyDoc_STRVAR(decode_doc, "decode($self, codes, /, *, missing=..)\n--\n\n"
"A list of the strings of codes: any buffer of integers of 4 bytes, such as an array('I') or a numpy array of uint32 or int32. `missing` is\n"
"what the list has for the code MISSING. Raises NoSymbol, an IndexError, with the position of the first code that is no symbol, NoTable.\n\n"
">>> table = SymbolTable()\n"
">>> table.decode(table.encode([\"b\", None], missing=MISSING), missing=\"?\")\n"
"['b', '?']");
static PyObject *table_decode(Table *self, PyObject *args, PyObject *named) {
    static char *names[] = {"", "missing", NULL};
    PyObject *codes, *missing = NULL;
    if (!PyArg_ParseTupleAndKeywords(args, named, "O|$O:decode", names, &codes, &missing) || check_open(self) < 0) return NULL;
    return decode_by(self, string_of, intaglio_len(&self->handle), false, codes, missing);
}

static PyObject *table_slice(Table *self, PyObject *slice) {
    Py_ssize_t start, stop, step;
    if (PySlice_Unpack(slice, &start, &stop, &step) < 0) return NULL;
    Py_ssize_t count = PySlice_AdjustIndices(table_len(self), &start, &stop, step);
    PyObject *list = PyList_New(count);
    for (Py_ssize_t i = 0; list && i < count; i++) {
        PyObject *content = lookup_or_raise(self, start + i * step);
        if (content) PyList_SET_ITEM(list, i, content);
        else Py_CLEAR(list);
    }
    return list;
}

static PyObject *table_subscript(Table *self, PyObject *index) {
    if (PySlice_Check(index)) return table_slice(self, index);
    Py_ssize_t symbol = PyNumber_AsSsize_t(index, NULL);
    if (symbol == -1 && PyErr_Occurred()) return NULL;
    PyObject *content;
    Py_ssize_t place = symbol < 0 ? symbol + table_len(self) : symbol;
    int found = is_symbol(place) ? lookup(self, (uint32_t)place, &content) : 0;
    if (found == 0) raise_by("no_such_symbol", "(On)", index, table_len(self));
    return found == 1 ? content : NULL;
}

static int table_contains(Table *self, PyObject *object) {
    uint32_t symbol;
    return find(self, object, &symbol);
}

PyDoc_STRVAR(index_doc, "index($self, content, start=0, stop=sys.maxsize, /)\n--\n\n"
"The symbol of the string. Raises ValueError if it isn't in the table, or not from start to stop.");
static PyObject *table_index(Table *self, PyObject *args) {
    PyObject *content;
    Py_ssize_t start = 0, stop = PY_SSIZE_T_MAX;
    uint32_t symbol;
    if (!PyArg_ParseTuple(args, "O|nn:index", &content, &start, &stop)) return NULL;
    int found = find(self, content, &symbol);
    if (found < 0) return NULL;
    PySlice_AdjustIndices(table_len(self), &start, &stop, 1);
    if (found && start <= (Py_ssize_t)symbol && (Py_ssize_t)symbol < stop) return PyLong_FromUnsignedLong(symbol);
    return PyErr_Format(PyExc_ValueError, "%R is not in the table", content);
}

PyDoc_STRVAR(count_doc, "count($self, content, /)\n--\n\n"
"1 if the string is in the table, and else 0.");
static PyObject *table_count(Table *self, PyObject *content) {
    int found = table_contains(self, content);
    return found < 0 ? NULL : PyLong_FromLong(found);
}

PyDoc_STRVAR(items_doc, "items($self, /)\n--\n\n"
"The symbols with their strings, in order.");
static PyObject *table_items(PyObject *self, PyObject *Py_UNUSED(none)) { return PyObject_CallOneArg((PyObject *)&PyEnum_Type, self); }

PyDoc_STRVAR(clear_doc, "clear($self, /)\n--\n\n"
"Drops all strings. The capacity stays, and the next symbol is 0.");
static PyObject *table_clear(Table *self, PyObject *Py_UNUSED(none)) {
    intaglio_clear(&self->handle);
    Py_RETURN_NONE;
}

PyDoc_STRVAR(take_back_doc, "take_back($self, length, /)\n--\n\n"
"Keeps the first `length` strings, and drops the rest. Raises Stale, NoTable.");
static PyObject *table_take_back(Table *self, PyObject *length) {
    size_t mark;
    bool is_read = read_number(length, &mark) == 0;
    if (!is_read && !PyErr_ExceptionMatches(PyExc_OverflowError)) return NULL;
    PyErr_Clear();
    if (check_open(self) < 0) return NULL;
    uint32_t code = is_read ? intaglio_take_back(&self->handle, mark) : INTAGLIO_STALE;
    return code == INTAGLIO_STALE ? raise_by("no_length", "(On)", length, table_len(self)) : done_or_refused(code);
}

PyDoc_STRVAR(reserve_doc, "reserve($self, additional, /)\n--\n\n"
"Reserves capacity for this many more strings. Raises TooLarge, NoMemory, NoTable.");
static PyObject *table_reserve(Table *self, PyObject *additional) {
    size_t size;
    return read_size(additional, &size) < 0 ? NULL : done_or_refused(intaglio_reserve(&self->handle, size));
}

PyDoc_STRVAR(shrink_to_doc, "shrink_to($self, min_capacity=0, /)\n--\n\n"
"Shrinks the capacity to this, or to the number of strings if that is greater. Raises TooLarge, NoMemory, NoTable.");
static PyObject *table_shrink_to(Table *self, PyObject *const *args, Py_ssize_t count) {
    size_t size = 0;
    if (count > 1) return PyErr_Format(PyExc_TypeError, "shrink_to takes a capacity (%zd arguments given)", count);
    return count && read_size(args[0], &size) < 0 ? NULL : done_or_refused(intaglio_shrink_to(&self->handle, size));
}

PyDoc_STRVAR(close_doc, "close($self, /)\n--\n\n"
"Frees the table. It then has no strings, and calls that would change it raise NoTable.");
static PyObject *table_close(Table *self, PyObject *Py_UNUSED(none)) {
    intaglio_free(&self->handle);
    Py_RETURN_NONE;
}

/* The strings as a frozen table, whose hash function has these keys. If it is to be this shard, no other thread may know the table: they run meanwhile. */
static PyObject *freeze(Table *self, const uint64_t keys[2], uint32_t *code, const intaglio_dictionary_id *shard) {
    size_t len = 0, size = intaglio_frozen_size(&self->handle);
    PyObject *bytes = PyBytes_FromStringAndSize(NULL, (Py_ssize_t)size);
    *code = INTAGLIO_DONE;
    if (!bytes) return NULL;
    PyThreadState *state = shard ? PyEval_SaveThread() : NULL;
    const intaglio_dictionary_id single = {.shards = 1};
    *code = intaglio_freeze_shard(&self->handle, keys[0], keys[1], shard ? shard : &single, (uint8_t *)PyBytes_AS_STRING(bytes), size, &len);
    if (state) PyEval_RestoreThread(state);
    if (*code) Py_CLEAR(bytes);
    else if (len != size) _PyBytes_Resize(&bytes, (Py_ssize_t)len);
    return bytes;
}

PyDoc_STRVAR(freeze_doc, "freeze($self, path=None, /, *, keys=(0, 0))\n--\n\n"
"Writes the strings, each at its symbol, to a file with a frozen table, which Frozen reads; without a path returns its bytes. The keys are those of its hash function,\n"
"or, if a string gets no place under them, the first is one of the seven after it: the same strings and keys give the same bytes.\n"
"With keys=None random ones are drawn, for strings that somebody may have chosen.\n"
"All is written to a new file in the same folder, synced, and renamed: so several processes may freeze to one file. It keeps its mode,\n"
"a symbolic link is followed, and what is no regular file isn't replaced. The strings of a CStringTable end with a zero there.\n"
"Raises TooMany, TooLong, NoPlaces, NoMemory, NoTable, OSError.");
static PyObject *table_freeze(Table *self, PyObject *args, PyObject *named) {
    static char *names[] = {"", "keys", NULL};
    PyObject *path = Py_None, *passed = NULL, *written = NULL;
    uint64_t keys[2] = {0, 0};
    uint32_t code = INTAGLIO_DONE;
    if (!PyArg_ParseTupleAndKeywords(args, named, "|O$O:freeze", names, &path, &passed) || (passed && read_keys(passed, keys) < 0)) return NULL;
    PyObject *bytes = freeze(self, keys, &code, NULL);
    if (!bytes) return code ? refused(code) : NULL;
    if (path == Py_None) return bytes;
    PyObject *module = PyImport_ImportModule("intaglio.frozen");
    if (module) written = PyObject_CallMethod(module, "replace", "OO", path, bytes);
    Py_XDECREF(module);
    Py_DECREF(bytes);
    return written;
}

/* What a Frozen holds its bytes by, or null and TypeError. */
static PyObject *bytes_of_frozen(PyObject *frozen) {
    PyObject *module = PyImport_ImportModule("intaglio.frozen"), *data = NULL;
    PyObject *type = module ? PyObject_GetAttrString(module, "Frozen") : NULL;
    int is_one = type ? PyObject_IsInstance(frozen, type) : -1;
    if (is_one == 0) PyErr_Format(PyExc_TypeError, "a Frozen, not %.200s", Py_TYPE(frozen)->tp_name);
    if (is_one == 1) data = PyObject_GetAttrString(frozen, "_data");
    if (data && PyTuple_Check(data)) {
        PyErr_SetString(PyExc_TypeError, "a Frozen of one file, and this one has shards");
        Py_CLEAR(data);
    }
    Py_XDECREF(type);
    Py_XDECREF(module);
    return data;
}

/* The symbol in frozen bytes of the first string that the table can't intern after those before it, or -1. The caller drops those. */
static Py_ssize_t refused_symbol(Table *self, const uint8_t *bytes, size_t size) {
    intaglio_spelling string;
    intaglio_opened opened = opened_at(bytes, size);
    for (uint32_t i = 0; intaglio_opened_get(&opened, i, &string); i++) {
        uint32_t symbol;
        if (intaglio_intern(&self->handle, string.at, string.len, &symbol)) return (Py_ssize_t)i;
    }
    return -1;
}

/* Interns all strings of frozen bytes or none, and returns their symbols. No other thread may know the table if it `is_alone`, as of freeze. */
static PyObject *absorb(Table *self, const Py_buffer *view, bool is_alone) {
    size_t count = intaglio_frozen_len(view->buf, (size_t)view->len), mark = intaglio_len(&self->handle);
    uint32_t *symbols = PyMem_Malloc((count + 1) * sizeof *symbols);
    if (!symbols) return PyErr_NoMemory();
    PyThreadState *state = is_alone ? PyEval_SaveThread() : NULL;
    uint32_t code = intaglio_absorb(&self->handle, view->buf, (size_t)view->len, symbols, count);
    Py_ssize_t place = code ? refused_symbol(self, view->buf, (size_t)view->len) : -1;
    if (code) (void)!intaglio_take_back(&self->handle, mark);
    if (state) PyEval_RestoreThread(state);
    PyObject *array = code ? refused_at(code, place) : array_of(symbols, count);
    PyMem_Free(symbols);
    return array;
}

PyDoc_STRVAR(absorb_doc, "absorb($self, frozen, /)\n--\n\n"
"Interns all strings of a Frozen in their order, or none, and returns their symbols: a map by which renumber turns codes of the\n"
"frozen table into symbols of this one. Raises what intern raises, and what is wrong with the header or the ends of a trusted file.\n\n"
">>> table = SymbolTable([\"b\"])\n"
">>> table.absorb(Frozen.from_bytes(SymbolTable([\"a\", \"b\"]).freeze()))\n"
"array('I', [1, 0])\n"
">>> list(table)\n"
"['b', 'a']");
static PyObject *absorb_frozen(Table *self, PyObject *frozen, bool is_alone) {
    Py_buffer view;
    PyObject *symbols = NULL, *data = bytes_of_frozen(frozen);
    if (data && borrow_frozen(data, &view) == 0) {
        symbols = absorb(self, &view, is_alone);
        PyBuffer_Release(&view);
    }
    Py_XDECREF(data);
    return symbols;
}

static PyObject *table_absorb(Table *self, PyObject *frozen) { return absorb_frozen(self, frozen, false); }

/* What merge makes its own table by. */

PyDoc_STRVAR(absorb_alone_doc, "_absorb_alone($self, frozen, /)\n--\n\n"
"As absorb, of a table that no other thread knows: they run meanwhile.");
static PyObject *table_absorb_alone(Table *self, PyObject *frozen) { return absorb_frozen(self, frozen, true); }

/* Interns each string of frozen bytes in the table of its shard. Returns a code. */
static uint32_t share_to(PyObject *tables, const Py_buffer *view) {
    intaglio_spelling string;
    intaglio_opened opened = opened_at(view->buf, (size_t)view->len);
    uint32_t shards = (uint32_t)PyTuple_GET_SIZE(tables), symbol, code = INTAGLIO_DONE;
    for (uint32_t i = 0; !code && intaglio_opened_get(&opened, i, &string); i++) {
        Table *table = (Table *)PyTuple_GET_ITEM(tables, (Py_ssize_t)intaglio_shard_of(shards, string.at, string.len));
        code = intaglio_intern(&table->handle, string.at, string.len, &symbol);
    }
    return code;
}

PyDoc_STRVAR(share_out_doc, "share_out(data, tables, /)\n--\n\n"
"Interns each string of a frozen table's bytes in the table of its shard. The tables are in a tuple, and no other thread may know them: they\n"
"run meanwhile. After an error, some strings may be in the tables.");
static PyObject *share_out(PyObject *Py_UNUSED(module), PyObject *args) {
    PyObject *data, *tables;
    Py_buffer view;
    uint32_t code;
    if (!PyArg_ParseTuple(args, "OO!:share_out", &data, &PyTuple_Type, &tables) || borrow_frozen(data, &view) < 0) return NULL;
    Py_BEGIN_ALLOW_THREADS
    code = share_to(tables, &view);
    Py_END_ALLOW_THREADS
    PyBuffer_Release(&view);
    return done_or_refused(code);
}

PyDoc_STRVAR(own_id_doc, "_own_id($self, /)\n--\n\nWhat the strings are as a dictionary in one file.");
static PyObject *table_own_id(Table *self, PyObject *Py_UNUSED(none)) {
    intaglio_dictionary_id id;
    uint32_t code = intaglio_own_id(&self->handle, &id);
    return id_or_refused(code, &id);
}

PyDoc_STRVAR(freeze_alone_doc, "_freeze_alone($self, keys, id, /)\n--\n\n"
"The bytes of a frozen table that is this shard of this dictionary. No other thread may know the table: they run meanwhile.");
static PyObject *table_freeze_alone(Table *self, PyObject *args) {
    uint64_t keys[2];
    uint32_t code = INTAGLIO_DONE;
    intaglio_dictionary_id id;
    PyObject *passed, *tuple;
    if (!PyArg_ParseTuple(args, "OO:_freeze_alone", &passed, &tuple) || read_keys(passed, keys) < 0 || read_id(tuple, &id) < 0) return NULL;
    PyObject *bytes = freeze(self, keys, &code, &id);
    return bytes || !code ? bytes : refused(code);
}

static PyObject *table_enter(PyObject *self, PyObject *Py_UNUSED(none)) { return Py_NewRef(self); }
static PyObject *table_exit(Table *self, PyObject *Py_UNUSED(args)) { return table_close(self, NULL); }

PyDoc_STRVAR(reduce_doc, "__reduce__($self, /)\n--\n\n"
"For pickle and copy: the class, the strings as a frozen table, the limit, and the attributes of a subclass. The keys aren't kept: the\n"
"copy has random ones. Raises TooMany, TooLong, NoMemory, NoTable.");
static PyObject *table_reduce(Table *self, PyObject *Py_UNUSED(none)) {
    uint64_t keys[2] = {0, 0};
    uint32_t code = INTAGLIO_DONE;
    PyObject *bytes = freeze(self, keys, &code, NULL), *reduced = NULL;
    /* Strings that were chosen to collide under these keys. */
    for (int i = 1; code == INTAGLIO_NO_PLACES && i < FREEZINGS; i++) {
        if (read_keys(Py_None, keys) < 0) return NULL;
        bytes = freeze(self, keys, &code, NULL);
    }
    if (!bytes) return code ? refused(code) : NULL;
    PyObject *module = PyImport_ImportModule("intaglio._table");
    PyObject *thaw = module ? PyObject_GetAttrString(module, "thaw") : NULL;
    PyObject *state = thaw ? PyObject_CallMethod((PyObject *)self, "__getstate__", NULL) : NULL;
    if (state) reduced = Py_BuildValue("O(OOn)O", thaw, Py_TYPE(self), bytes, (Py_ssize_t)self->limit, state);
    Py_XDECREF(state);
    Py_XDECREF(thaw);
    Py_XDECREF(module);
    Py_DECREF(bytes);
    return reduced;
}

static PyObject *table_repr(Table *self) { return PyUnicode_FromFormat("<%s of %zd>", _PyType_Name(Py_TYPE(self)), table_len(self)); }

static PyObject *table_capacity(Table *self, void *Py_UNUSED(closure)) { return PyLong_FromSize_t(intaglio_capacity(&self->handle)); }

/* Making and freeing */

/* A table that is still without a handle's table: __init__ makes that. */
static PyObject *new_table(PyTypeObject *type, uint32_t kind) {
    Table *self = (Table *)type->tp_alloc(type, 0);
    if (self) self->kind = kind;
    return (PyObject *)self;
}

static PyObject *new_base(PyTypeObject *type, PyObject *Py_UNUSED(args), PyObject *Py_UNUSED(named)) {
    return PyErr_Format(PyExc_TypeError, "%.200s is of no kind: use SymbolTable or another of the six", type->tp_name);
}

/* Makes the handle's table, with this limit or else this capacity. */
static uint32_t make(Table *self, bool has_limit, size_t size, const uint64_t keys[2]) {
    self->limit = has_limit ? size : 0;
    return has_limit ? intaglio_with_limit(&self->handle, self->kind, size, keys[0], keys[1])
                     : intaglio_with_capacity(&self->handle, self->kind, size, keys[0], keys[1]);
}

static int table_init(Table *self, PyObject *args, PyObject *named) {
    static char *names[] = {"contents", "capacity", "limit", "keys", NULL};
    PyObject *contents = NULL, *capacity = Py_None, *limit = Py_None, *passed = Py_None;
    uint64_t keys[2];
    size_t size = DEFAULT_CAPACITY;
    if (!PyArg_ParseTupleAndKeywords(args, named, "|O$OOO", names, &contents, &capacity, &limit, &passed)) return -1;
    if (capacity != Py_None && limit != Py_None) {
        PyErr_SetString(PyExc_TypeError, "either a capacity or a limit");
        return -1;
    }
    if (read_keys(passed, keys) < 0) return -1;
    PyObject *number = limit != Py_None ? limit : capacity;
    if (number != Py_None && read_size(number, &size) < 0) return -1;
    uint32_t code = make(self, limit != Py_None, size, keys);
    Numbers numbers = {0};
    if (code) return refused(code), -1;
    int status = contents ? intern_items(self, contents, &SYMBOLS, &numbers) : 0;
    PyMem_Free(numbers.at);
    return status;
}

/* Interns the strings of a frozen table, each at its symbol, into a table without strings. Returns a code. */
static uint32_t thaw_each(Table *self, const uint8_t *bytes, size_t size) {
    intaglio_opened opened = opened_at(bytes, size);
    size_t count = intaglio_opened_len(&opened);
    for (size_t i = 0; i < count; i++) {
        intaglio_spelling string;
        uint32_t symbol;
        if (!intaglio_opened_get(&opened, (uint32_t)i, &string)) return INTAGLIO_NO_SYMBOL;
        uint32_t code = intaglio_intern(&self->handle, string.at, string.len, &symbol);
        if (code) return code;
        if (symbol != i) return INTAGLIO_EQUAL;
    }
    return INTAGLIO_DONE;
}

/* Puts the strings of a frozen table into a table without strings. The bytes may come from anywhere, so they are checked. */
static uint32_t thaw_into(Table *self, const uint8_t *bytes, size_t size, size_t limit, const uint64_t keys[2]) {
    uint32_t code = intaglio_frozen_check(bytes, size);
    if (!code && intaglio_frozen_is_text(bytes, size) != has_texts(self->kind)) code = INTAGLIO_NO_KIND;
    if (!code) code = make(self, limit != 0, limit ? limit : intaglio_frozen_len(bytes, size), keys);
    return code ? code : thaw_each(self, bytes, size);
}

/* A new object of a class of tables, or null and TypeError. */
static PyObject *new_of(PyObject *module, PyTypeObject *type) {
    PyObject *base = PyObject_GetAttrString(module, "Table"), *none = PyTuple_New(0), *made = NULL;
    if (base && none && PyType_IsSubtype(type, (PyTypeObject *)base)) made = type->tp_new(type, none, NULL);
    if (base && none && !PyErr_Occurred() && !(made && PyObject_TypeCheck(made, (PyTypeObject *)base))) {
        Py_CLEAR(made);
        PyErr_Format(PyExc_TypeError, "%.200s is no class of tables", type->tp_name);
    }
    Py_XDECREF(none);
    Py_XDECREF(base);
    return made;
}

/* Pickles name this function, so it keeps its name and its parameters. */
PyDoc_STRVAR(thaw_doc, "thaw(kind, data, limit, /)\n--\n\n"
"A table of a class, with the strings of a frozen table, each at its symbol. A limit of 0 is none. Raises what Frozen raises, Equal, and\n"
"what intern raises.");
static PyObject *thaw(PyObject *module, PyObject *args) {
    PyTypeObject *type;
    Py_buffer view;
    Py_ssize_t limit;
    uint64_t keys[2];
    if (!PyArg_ParseTuple(args, "O!y*n:thaw", &PyType_Type, &type, &view, &limit)) return NULL;
    PyObject *table = read_keys(Py_None, keys) == 0 ? new_of(module, type) : NULL;
    uint32_t code = table ? thaw_into((Table *)table, view.buf, (size_t)view.len, (size_t)limit, keys) : INTAGLIO_DONE;
    PyBuffer_Release(&view);
    if (!code) return table;
    Py_DECREF(table);
    return refused(code);
}

static void table_dealloc(Table *self) {
    PyTypeObject *type = Py_TYPE(self);
    if (self->weak) PyObject_ClearWeakRefs((PyObject *)self);
    intaglio_free(&self->handle);
    type->tp_free((PyObject *)self);
    Py_DECREF(type);
}

/* Types */

static PyMethodDef methods[] = {
    {"intern", (PyCFunction)table_intern, METH_O, intern_doc},
    {"intern_all", (PyCFunction)table_intern_all, METH_O, intern_all_doc},
    {"intern_into", FAST(table_intern_into), METH_VARARGS | METH_KEYWORDS, intern_into_doc},
    {"intern_lines", (PyCFunction)table_intern_lines, METH_O, intern_lines_doc},
    {"encode", FAST(table_encode), METH_VARARGS | METH_KEYWORDS, encode_doc},
    {"encode_into", FAST(table_intern_into), METH_VARARGS | METH_KEYWORDS, encode_into_doc},
    {"encode_lines", (PyCFunction)table_intern_lines, METH_O, encode_lines_doc},
    {"decode", FAST(table_decode), METH_VARARGS | METH_KEYWORDS, decode_doc},
    {"check_interned", (PyCFunction)table_check_interned, METH_O, check_interned_doc},
    {"check_all", (PyCFunction)table_check_all, METH_O, check_all_doc},
    {"check_into", FAST(table_check_into), METH_VARARGS | METH_KEYWORDS, check_into_doc},
    {"get", FAST(table_get), METH_FASTCALL, get_doc},
    {"get_all", (PyCFunction)table_get_all, METH_O, get_all_doc},
    {"index", (PyCFunction)table_index, METH_VARARGS, index_doc},
    {"count", (PyCFunction)table_count, METH_O, count_doc},
    {"items", table_items, METH_NOARGS, items_doc},
    {"clear", (PyCFunction)table_clear, METH_NOARGS, clear_doc},
    {"take_back", (PyCFunction)table_take_back, METH_O, take_back_doc},
    {"reserve", (PyCFunction)table_reserve, METH_O, reserve_doc},
    {"shrink_to", FAST(table_shrink_to), METH_FASTCALL, shrink_to_doc},
    {"freeze", FAST(table_freeze), METH_VARARGS | METH_KEYWORDS, freeze_doc},
    {"absorb", (PyCFunction)table_absorb, METH_O, absorb_doc},
    {"_absorb_alone", (PyCFunction)table_absorb_alone, METH_O, absorb_alone_doc},
    {"_own_id", (PyCFunction)table_own_id, METH_NOARGS, own_id_doc},
    {"_freeze_alone", (PyCFunction)table_freeze_alone, METH_VARARGS, freeze_alone_doc},
    {"close", (PyCFunction)table_close, METH_NOARGS, close_doc},
    {"__enter__", table_enter, METH_NOARGS, NULL},
    {"__exit__", (PyCFunction)table_exit, METH_VARARGS, NULL},
    {"__reduce__", (PyCFunction)table_reduce, METH_NOARGS, reduce_doc},
    {"__class_getitem__", Py_GenericAlias, METH_O | METH_CLASS, NULL},
    {NULL, NULL, 0, NULL},
};

static PyGetSetDef properties[] = {
    {"capacity", (getter)table_capacity, NULL, "How many strings fit before the table has to grow.", NULL},
    {NULL, NULL, NULL, NULL, NULL},
};

static PyMemberDef members[] = {
    {"__weaklistoffset__", T_PYSSIZET, offsetof(Table, weak), READONLY, NULL},
    {NULL, 0, 0, 0, NULL},
};

/* What help and inspect.signature show of a constructor. */
#define SIGNATURE "(contents=(), *, capacity=None, limit=None, keys=None)\n--\n\n"

PyDoc_STRVAR(table_doc, "Table" SIGNATURE "What the kinds of tables share: a sequence of distinct strings, each at its symbol.\n\n"
"contents: the strings to begin with. capacity: how many strings fit before the table has to grow. limit: the maximum number of\n"
"strings; the capacity is then 0 at first. keys: those of the hash function, SipHash-1-3, two integers from 0 to 2**64 - 1. By\n"
"default they are random, which protects against strings that are chosen to collide.\n\n"
"Raises TooLarge, NoMemory, and what intern raises.");

static PyType_Slot base_slots[] = {
    {Py_tp_doc, (void *)table_doc},
    {Py_tp_new, new_base},
    {Py_tp_init, table_init},
    {Py_tp_dealloc, table_dealloc},
    {Py_tp_repr, table_repr},
    {Py_tp_iter, PySeqIter_New},
    {Py_tp_methods, methods},
    {Py_tp_members, members},
    {Py_tp_getset, properties},
    {Py_mp_length, table_len},
    {Py_mp_subscript, table_subscript},
    {Py_sq_length, table_len},
    {Py_sq_item, lookup_or_raise},
    {Py_sq_contains, table_contains},
    {0, NULL},
};
static PyType_Spec base = {"intaglio.Table", sizeof(Table), 0, Py_TPFLAGS_DEFAULT | Py_TPFLAGS_BASETYPE | Py_TPFLAGS_SEQUENCE, base_slots};

#define KIND(NAME, NUMBER, CLASS, DOC) \
    static PyObject *new_##NAME(PyTypeObject *type, PyObject *Py_UNUSED(args), PyObject *Py_UNUSED(named)) { return new_table(type, NUMBER); } \
    static PyType_Slot slots_of_##NAME[] = {{Py_tp_doc, (void *)(CLASS SIGNATURE DOC "\n\nhelp(intaglio.Table) describes the arguments.")}, {Py_tp_new, new_##NAME}, {0, NULL}}; \
    static PyType_Spec spec_of_##NAME = {"intaglio." CLASS, sizeof(Table), 0, Py_TPFLAGS_DEFAULT | Py_TPFLAGS_BASETYPE | Py_TPFLAGS_SEQUENCE, slots_of_##NAME};
/* Strings are copied into a table and out of it, so strings and bytes are in one buffer each. */
KIND(text, INTAGLIO_PACKED_TEXT, "SymbolTable", "A table of strings.")
KIND(bytes, INTAGLIO_PACKED_BYTES, "BytesTable", "A table of bytes.")
KIND(cstr, INTAGLIO_CSTR, "CStringTable", "A table of bytes without a zero, which the library holds as C strings. Raises InnerZero.")
KIND(path, INTAGLIO_PATH, "PathTable", "A table of paths, which are equal if their components are, as \"a//b\" and \"a/./b\".")
KIND(osstr, INTAGLIO_OSSTR, "OsStringTable", "A table of OS strings, which are UTF-8.")
KIND(bstr, INTAGLIO_BSTR, "ByteStringTable", "A table of bytes that are text by convention.")

static PyMethodDef functions[] = {
    {"thaw", thaw, METH_VARARGS, thaw_doc},
    {"share_out", share_out, METH_VARARGS, share_out_doc},
    {NULL, NULL, 0, NULL},
};

static int add_types(PyObject *module) {
    static PyType_Spec *const kinds[] = {&spec_of_text, &spec_of_bytes, &spec_of_cstr, &spec_of_path, &spec_of_osstr, &spec_of_bstr};
    PyObject *table = PyType_FromModuleAndSpec(module, &base, NULL);
    int status = table ? PyModule_AddType(module, (PyTypeObject *)table) : -1;
    for (size_t i = 0; status == 0 && i < sizeof kinds / sizeof *kinds; i++) {
        PyObject *kind = PyType_FromModuleAndSpec(module, kinds[i], table);
        status = kind ? PyModule_AddType(module, (PyTypeObject *)kind) : -1;
        Py_XDECREF(kind);
    }
    Py_XDECREF(table);
    return status;
}

static int execute(PyObject *module) {
    if (PyModule_AddFunctions(module, frozen_functions) < 0 || PyModule_AddFunctions(module, codes_functions) < 0) return -1;
    if (PyModule_AddFunctions(module, columns_functions) < 0 || PyModule_AddFunctions(module, shards_functions) < 0) return -1;
#ifdef Py_GIL_DISABLED
    PyErr_SetString(PyExc_ImportError, "intaglio needs an interpreter with a global lock: its tables have none of their own");
    return -1;
#endif
    if (PyModule_AddStringConstant(module, "__version__", VERSION) < 0) return -1;
    PyObject *missing = PyLong_FromUnsignedLong(MISSING);
    int status = PyModule_AddObjectRef(module, "MISSING", missing);
    Py_XDECREF(missing);
    if (status < 0) return -1;
    return add_types(module);
}

static PyModuleDef_Slot module_slots[] = {
    {Py_mod_exec, execute},
#ifdef Py_MOD_PER_INTERPRETER_GIL_SUPPORTED
    {Py_mod_multiple_interpreters, Py_MOD_PER_INTERPRETER_GIL_SUPPORTED},
#endif
    {0, NULL},
};
static struct PyModuleDef definition = {PyModuleDef_HEAD_INIT, "intaglio._table", "The tables, over libintaglio.", 0, functions, module_slots, NULL, NULL, NULL};

PyMODINIT_FUNC PyInit__table(void) { return PyModuleDef_Init(&definition); }
