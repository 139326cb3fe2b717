/* What the files of intaglio._table share. */
#ifndef INTAGLIO_SHARED_H
#define INTAGLIO_SHARED_H
#define PY_SSIZE_T_CLEAN
#include <Python.h>
#include <stdbool.h>
#include "intaglio.h"

/* Names stay inside the extension, which is compiled with -fvisibility=hidden. */

enum {
    /* How many items ahead a batch fetches an object. */
    AHEAD = 8,
    LINE = 64,
    /* How many strings of a batch are passed to the library in one call, and how many bytes they may have together. */
    GROUP = 64,
    GROUP_BYTES = 8192,
    /* How many strings of a frozen table become objects before other threads may run. */
    TURN = 1 << 14
};

/* The code of a string that isn't in a table. As an integer with a sign it is -1. */
#define MISSING UINT32_MAX

/* Ends the message about what is missing, where `missing` may be passed. */
#define ADVICE_ON_MISSING ": missing= gives None, NaN and NA a code"

#define FAST(FUNCTION) (PyCFunction)(void (*)(void)) FUNCTION

/* Errors: errors.c. Each raises an exception, and returns null. */

/* What a function of intaglio.errors returns for arguments of this format. */
PyObject *raise_by(const char *name, const char *format, ...);
/* The exception of an error code. */
PyObject *refused(uint32_t code);
/* The same, about the string at a position, or -1. */
PyObject *refused_at(uint32_t code, Py_ssize_t position);
/* None, or the exception of an error code. */
PyObject *done_or_refused(uint32_t code);
/* TypeError for an object that is no content of the kind, at a position or -1. The advice ends the message. */
PyObject *wrong_type(uint32_t kind, PyObject *object, Py_ssize_t position, const char *advice);
/* NotUtf8 in place of UnicodeEncodeError: a text that has no UTF-8 has a lone surrogate. Leaves another exception. */
PyObject *not_spelled(Py_ssize_t position);
/* Whether the exception says that a text has no UTF-8, and so is in no table. Then it is cleared. */
bool is_absent(void);

/* Contents */

static inline bool has_texts(uint32_t kind) { return kind == INTAGLIO_PACKED_TEXT || kind == INTAGLIO_PATH || kind == INTAGLIO_OSSTR; }

/* Whether `spell` takes the object as it is. */
static inline bool is_native(uint32_t kind, PyObject *content) {
    return has_texts(kind) ? PyUnicode_Check(content) : PyBytes_Check(content);
}

/* The content as an object that `spell` takes, or null and TypeError. May run code of Python's. */
PyObject *native(uint32_t kind, PyObject *content, Py_ssize_t position, const char *advice);

/* The bytes of a native content, which stay with it, or null and an exception: UnicodeEncodeError, MemoryError. */
static inline const uint8_t *spell(uint32_t kind, PyObject *content, size_t *len) {
    Py_ssize_t size;
    if (!has_texts(kind)) {
        /* A bytes object has a zero behind its bytes, which a C string includes. */
        *len = (size_t)PyBytes_GET_SIZE(content) + (kind == INTAGLIO_CSTR);
        return (const uint8_t *)PyBytes_AS_STRING(content);
    }
    if (PyUnicode_IS_COMPACT_ASCII(content)) {
        *len = (size_t)PyUnicode_GET_LENGTH(content);
        return PyUnicode_1BYTE_DATA(content);
    }
    const char *text = PyUnicode_AsUTF8AndSize(content, &size);
    *len = (size_t)size;
    return (const uint8_t *)text;
}

/* The object of a string's bytes, or null and an exception. */
static inline PyObject *object_of(bool is_text, const uint8_t *at, size_t len) {
    return is_text ? PyUnicode_DecodeUTF8((const char *)at, (Py_ssize_t)len, NULL) : PyBytes_FromStringAndSize((const char *)at, (Py_ssize_t)len);
}

/* Numbers: numbers.c */

/* Reads a symbol. A number that none has is -1, and so is an error, with TypeError. */
Py_ssize_t read_symbol(PyObject *number);

/* Strings in order: source.c */

/* What comes next: a string; an item for which None, NaN or NA stands, and that is skipped; the end; an item that isn't native, or that
 * has no UTF-8, with an exception; or something failed, with an exception. */
typedef enum {
    STRING,
    SKIPPED,
    END,
    NOT_NATIVE,
    NOT_SPELLED,
    FAILED
} Next;

/* The strings of a batch in order: the items of a list, a tuple or an array of objects, or the lines of a buffer. */
typedef struct {
    uint32_t kind;
    /* Where the next string is, and how many items there are. */
    Py_ssize_t position, count;
    PyObject **items;
    /* The list or tuple, or null. */
    PyObject *owner;
    /* That of an array of objects or of lines; its `obj` is null if there is none. */
    Py_buffer view;
    bool is_lines;
    const uint8_t *line, *end;
    size_t line_len;
    /* A copy of the lines, for C strings: each is followed by a zero there. */
    uint8_t *zeroed;
    /* Whether None, NaN and NA are skipped; pandas.NA, if it was imported. */
    bool skips;
    PyObject *na;
    /* Of a Categorical, whose items are the categories that it uses: the item of each row, or MISSING; how many rows there are; the first row of
     * each item. Of others null. */
    uint32_t *rows;
    size_t row_count;
    Py_ssize_t *firsts;
} Source;

/* The position that a caller knows an item by. */
static inline Py_ssize_t place_of(const Source *source, Py_ssize_t position) { return source->firsts && position >= 0 ? source->firsts[position] : position; }
/* How many numbers come of the items. */
static inline size_t rows_of(const Source *source) { return source->rows ? source->row_count : (size_t)source->count; }

/* Stores an attribute, and returns 1; or 0 if there is none, with null; or -1 and an exception. */
int find_attribute(PyObject *object, const char *name, PyObject **attribute);
/* Calls a method without arguments: 1 and its result, 0 and null if there is none, or -1, null and an exception. */
int call_if_there(PyObject *object, const char *name, PyObject **result);
/* Makes the items of a list or another iterable those of the source. */
int own_list(Source *source, PyObject *contents);
/* The same of a column of pandas or of another library, which gives its array: for objects that is no copy. */
int open_column(Source *source, PyObject *contents);
int open_items(Source *source, uint32_t kind, PyObject *contents, bool skips);
int open_lines(Source *source, uint32_t kind, PyObject *buffer);
void close_source(Source *source);
/* Gives the source a list of its own, in which each item is native or skipped, and begins again. May run code of Python's. */
int convert_items(Source *source, bool takes_missing);
/* Reads again where the items of a list are, after other code may have run. Returns -1 and RuntimeError if there are more or fewer. */
int refresh_items(Source *source);
bool is_skipped(const Source *source, PyObject *item);
/* Whether an object is None, NaN or NA. */
bool is_missing(PyObject *object);
Next peek_line(Source *source, const uint8_t **at, size_t *len);

/* Fetches the object of an item that comes soon, and with it the bytes behind its head. */
static inline void fetch(const Source *source) {
    if (source->position + AHEAD >= source->count) return;
    __builtin_prefetch(source->items[source->position + AHEAD]);
    __builtin_prefetch((const char *)source->items[source->position + AHEAD] + LINE);
}

/* The bytes of the string that comes next. They stay until other code runs. */
static inline Next peek(Source *source, const uint8_t **at, size_t *len) {
    if (source->is_lines) return peek_line(source, at, len);
    if (source->position >= source->count) return END;
    fetch(source);
    PyObject *item = source->items[source->position];
    /* (an array of objects may have null in place of None) */
    if (!item || !is_native(source->kind, item)) return is_skipped(source, item) ? SKIPPED : NOT_NATIVE;
    *at = spell(source->kind, item, len);
    return *at ? STRING : NOT_SPELLED;
}

/* Goes on behind what `peek` found. */
static inline void advance(Source *source) {
    source->position++;
    if (!source->is_lines) return;
    source->line += source->line_len;
    source->line += source->line < source->end;
}

/* Some strings of a batch, one behind the other, with the end of each and its position. */
typedef struct {
    const uint8_t *at;
    size_t count, len;
    /* Room for how many strings and bytes there is. */
    size_t most, room;
    size_t *ends;
    Py_ssize_t *places;
    uint8_t *bytes;
} Group;

/* Joins the strings that come next, as many as the group has places and room for; a string that is too long for it is a group of its own, and
 * isn't copied. The library looks the strings of a call up together, which is faster. Returns what comes behind them. */
Next join(Source *source, Group *group);

/* Numbers of a batch's strings, which grow with it. */
typedef struct {
    uint32_t *at;
    size_t count, room;
} Numbers;

/* Makes room for `count` numbers. */
int reserve_numbers(Numbers *numbers, size_t count);

/* Categoricals: categories.c */

/* Opens the source over the categories that a Categorical uses, or a column of pandas that has one. Returns 1, 0 if it is none, or -1 and an
 * exception. */
int open_categorical(Source *source, PyObject *contents, bool skips);
/* Makes numbers of the rows from those of the items, with one for what is missing. Does nothing if the source is no Categorical. */
void spread(Source *source, Numbers *numbers, uint32_t missing);
/* The same of numbers of 8 bytes. Returns -1 and an exception if there is no memory. */
int spread_found(const Source *source, uint64_t **numbers);

/* Codes in buffers: codes.c */

/* What a caller passed for what is missing: nothing, or a code. */
typedef struct {
    bool is_given;
    uint32_t code;
} Stand;

int read_stand(PyObject *missing, Stand *stand);
/* Borrows a buffer of codes that can be written: integers of 4 bytes. */
int borrow_codes(PyObject *buffer, Py_buffer *view);
/* Writes codes to the start of a borrowed buffer, and returns how many there are as an object. */
PyObject *write_codes(const Py_buffer *view, const uint32_t *codes, size_t count);
/* An array('I') of numbers, or null and an exception. */
PyObject *array_of(const uint32_t *numbers, size_t count);
/* The same with another type, such as 'Q', of so many bytes. */
PyObject *typed_array(char type, const void *numbers, size_t size);

/* Codes of a buffer, or a copy of them if they aren't aligned and one behind the other. */
typedef struct {
    Py_buffer view;
    const uint32_t *at;
    size_t count;
    uint32_t *own;
} Codes;

/* The codes of a buffer, or of a column of pandas or of another library, which gives its array. Returns -1 and an exception. */
int open_codes(Codes *codes, PyObject *given);
void close_codes(Codes *codes);
/* One code, which is read once: a thread that doesn't hold the interpreter's lock may write to the buffer. */
static inline uint32_t load_code(const Codes *codes, size_t i) { return __atomic_load_n(codes->at + i, __ATOMIC_RELAXED); }
/* The string of a symbol as an object; null without an exception if there is none, or with one. */
typedef PyObject *(*StringOf)(const void *of, uint32_t symbol);
/* A list of the strings of codes in a buffer, with `missing` for MISSING unless that is null. If `yields`, other threads may run meanwhile. */
PyObject *decode_by(const void *of, StringOf string_of, size_t len, bool yields, PyObject *buffer, PyObject *missing);
/* Lets other threads run that wait for the interpreter's lock. */
void give_turn(void);
extern PyMethodDef codes_functions[];

/* Frozen tables: frozen.c */

extern PyMethodDef frozen_functions[];

/* Shards: shards.c */

/* The bytes of a frozen table, and what their header says, which is read once: no string, if it is damaged. */
typedef struct {
    Py_buffer view;
    intaglio_opened opened;
} Shard;

/* What strings are looked up in: a frozen table, or the shards of a dictionary, whose symbols count through the shards. */
typedef struct {
    /* Each, and how many there are. */
    Shard *shards;
    size_t count;
    /* The symbol at which each shard begins, and behind them how many strings there are. Null for a frozen table, whose first symbol is `first`. */
    const uint32_t *starts;
    uint32_t first;
    /* What these lead to. */
    Shard one;
    Py_buffer numbers;
} Tables;

/* Opens a frozen table, or a table without strings if the bytes are none. */
static inline intaglio_opened opened_at(const uint8_t *bytes, size_t size) {
    intaglio_opened opened;
    return intaglio_open(&opened, bytes, size) ? (intaglio_opened){.bytes = bytes} : opened;
}

/* Borrows the bytes of a table. */
int borrow_frozen(PyObject *data, Py_buffer *view);
/* The same of a frozen table, or of shards: a pair of an array('I') of where they begin and a tuple of their bytes. The struct stays where it is. */
int open_tables(Tables *tables, PyObject *data);
/* The same, but of shards only the one that a string belongs to, or that has a symbol. */
int open_table_of(Tables *tables, PyObject *data, const uint8_t *at, size_t len);
int open_table_at(Tables *tables, PyObject *data, uint32_t symbol);
void close_tables(Tables *tables);
/* How many strings the tables have. */
size_t strings_in(const Tables *tables);
/* These read nothing of Python's. Whether a string is there, and its symbol; whether a symbol has a string, and where that is. */
bool find_string(const Tables *tables, const uint8_t *at, size_t len, uint32_t *symbol);
bool get_string(const Tables *tables, uint32_t symbol, intaglio_spelling *out);
/* Writes the symbol of each string of a group, or INTAGLIO_ABSENT. Returns a code. */
uint32_t find_strings(const Tables *tables, const Group *block, uint64_t *found);
extern PyMethodDef shards_functions[];

/* Columns: columns.c */

/* What a dictionary or a shard is, as a tuple of the fields, or null and the exception of an error code. */
PyObject *id_or_refused(uint32_t code, const intaglio_dictionary_id *id);
int read_id(PyObject *tuple, intaglio_dictionary_id *id);
extern PyMethodDef columns_functions[];

#endif
