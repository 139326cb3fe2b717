/* Intaglio: symbol tables (string interners) for C and C++, proved correct.
 *
 * A symbol table assigns each distinct string a number, its symbol, and returns the string of a symbol. Symbols count up from
 * 0. There are eight kinds of tables with the same functions:
 *
 *   intaglio_text          UTF-8 strings
 *   intaglio_bytes         bytes
 *   intaglio_cstr          C strings: bytes whose only zero is the last one, which is included in the length
 *   intaglio_path          paths: UTF-8 strings that are equal if their components are, as "a//b" and "a/./b"
 *   intaglio_osstr         OS strings: UTF-8 here
 *   intaglio_bstr          byte strings: bytes that are text by convention
 *   intaglio_packed_text   UTF-8 strings in one buffer
 *   intaglio_packed_bytes  bytes in one buffer
 *
 * A packed table takes less memory, but the pointer of its get is valid only until the next call that interns, reserves or shrinks.
 *
 * For example, intaglio_text_intern interns a string in an intaglio_text. If the kind is known only at run time, use
 * intaglio_table and the functions without a kind in their names, such as intaglio_intern.
 *
 * bindings/build makes libintaglio.a and libintaglio.so, and bindings/install installs them with this header. docs/FROM-C.md describes
 * how, and what is proved. Both are for Linux on x86-64, on processors of the level x86-64-v2, which has SSE4.2: an older one may stop
 * at an illegal instruction, which nothing tests for. CPU=x86-64 bindings/build compiles for each x86-64 processor. There is no library
 * for other platforms.
 *
 * Errors: a function that fails returns an error code, and leaves the strings and symbols of the table unchanged, except for those
 * that make a table, which free the one that the handle held. The comments below name the codes without INTAGLIO_.
 *
 * Pointers: each pointer must be valid for the given number of elements, and aligned. It may be null if that number is 0; a pointer
 * without a number must not be null. Memory that a function writes must not overlap other memory that is passed to it. None of this
 * is checked.
 *
 * Ownership: a table owns its strings. New strings are copied, except by intern_static into a table that isn't packed.
 * Each table must be freed. No pointer is kept after a call, except by intern_static.
 *
 * Threads: a table must not be used by two threads at the same time, except for reading (see Const). It may be passed to
 * another thread through a lock, or by starting or joining a thread. No function may be called in a signal handler, or in the
 * forked child of a process with threads.
 *
 * Const: a function that takes a const table leaves its strings, symbols and capacity as they are, by its contract, and writes neither
 * to them nor to the handle. So a handle may be const, and any number of threads may make such calls at the same time, through
 * one handle, while no other function uses the table. That nothing is written is tested (bindings/tests/reads.c), and no contract.
 */
#ifndef INTAGLIO_H
#define INTAGLIO_H

#include <stdbool.h>
#include <stddef.h>
#include <stdint.h>

#ifdef __cplusplus
extern "C" {
#endif

/* The version of this header. The first number changes if a program that was compiled before may break. */
#define INTAGLIO_VERSION_MAJOR 3
#define INTAGLIO_VERSION_MINOR 0
#define INTAGLIO_VERSION_PATCH 0
#define INTAGLIO_VERSION (INTAGLIO_VERSION_MAJOR * 10000 + INTAGLIO_VERSION_MINOR * 100 + INTAGLIO_VERSION_PATCH)
#define INTAGLIO_VERSION_STRING "3.0.0"

/* Marks functions whose code must not be ignored. */
#if defined(__GNUC__) || defined(__clang__)
#define INTAGLIO_MUST_USE __attribute__((__warn_unused_result__))
#else
#define INTAGLIO_MUST_USE
#endif

/* A handle, which holds a table of any kind or none. Initialize it with INTAGLIO_TABLE_NONE, or with zeros: then it holds none. The
 * fields are private. The struct may be moved. If it is copied and the table is then changed through one of the two, the other must never
 * be used again. */
typedef struct {
    bool live;
    void *ptr;
} intaglio_table;
/* clang-format off */
#define INTAGLIO_TABLE_NONE {false, NULL}
/* clang-format on */

/* The bytes of a symbol. `at` isn't null, even if `len` is 0. */
typedef struct {
    const uint8_t *at;
    size_t len;
} intaglio_spelling;

/* A dictionary, or one of its shards: whether the strings are UTF-8, how many there are, the two hashes that are the identity of the
 * dictionary, how many shards it has, and the number of this one. A dictionary in one file is its only shard. */
typedef struct {
    bool is_text;
    uint64_t count;
    uint64_t hash0;
    uint64_t hash1;
    uint32_t shards;
    uint32_t shard;
} intaglio_dictionary_id;

/* What the header of a frozen table says, and where its sections begin. The library writes it, and no field needs to be read: `count` is
 * the number of strings, and `kind` is 1 if they are UTF-8. */
typedef struct {
    uint64_t key0;
    uint64_t key1;
    size_t count;
    size_t starts_at;
    size_t pilots_at;
    size_t tags_at;
    size_t text_at;
    uint32_t places;
    uint32_t groups;
    uint32_t kind;
} intaglio_sections;

/* An opened frozen table: its bytes, which stay the caller's, and their sections. The struct may be copied. It owns nothing. */
typedef struct {
    const uint8_t *bytes;
    size_t len;
    intaglio_sections sections;
} intaglio_opened;

/* The kinds. */
enum {
    INTAGLIO_TEXT = 0,
    INTAGLIO_BYTES = 1,
    INTAGLIO_CSTR = 2,
    INTAGLIO_PATH = 3,
    INTAGLIO_OSSTR = 4,
    INTAGLIO_BSTR = 5,
    INTAGLIO_PACKED_TEXT = 6,
    INTAGLIO_PACKED_BYTES = 7
};

/* A code: 0 if the call succeeded, and otherwise why it failed. */
typedef uint32_t intaglio_code;

/* The codes. */
enum {
    INTAGLIO_DONE = 0,
    INTAGLIO_NO_TABLE = 1,        /* the handle holds no table */
    INTAGLIO_FULL = 2,            /* the string is new, and the table holds as many as its limit */
    INTAGLIO_NO_MEMORY = 3,       /* malloc or realloc returned null */
    INTAGLIO_TOO_LARGE = 4,       /* a capacity above 2^32 or the limit, or a limit of 0 or above 2^32 */
    INTAGLIO_STALE = 5,           /* the table has fewer strings than the mark counts */
    INTAGLIO_NOT_UTF8 = 6,        /* text, path, osstr, packed_text, a frozen table of UTF-8 strings: the bytes aren't UTF-8 */
    INTAGLIO_INNER_ZERO = 7,      /* cstr: a zero byte before the last byte */
    INTAGLIO_MISSING_ZERO = 8,    /* cstr: no zero byte at all */
    INTAGLIO_BAD_ENDS = 9,        /* the ends of a batch decrease or exceed its bytes, or its arrays differ in length */
    INTAGLIO_NO_SYMBOL = 10,      /* the table has no such symbol; a code of a column is none */
    INTAGLIO_NO_SPACE = 11,       /* the buffer is too short */
    INTAGLIO_NO_KIND = 12,        /* the number is not that of a kind */
    INTAGLIO_NOT_FROZEN = 13,     /* the bytes don't begin as a frozen table does */
    INTAGLIO_OTHER_VERSION = 14,  /* a frozen table or a column of another version */
    INTAGLIO_RESERVED = 15,       /* a reserved byte of a frozen table or a column isn't zero */
    INTAGLIO_TOO_MANY = 16,       /* more strings than a frozen table can have, which is 2^31 */
    INTAGLIO_TRUNCATED = 17,      /* the bytes of a frozen table end within its header or a section, or those of a column before its last row */
    INTAGLIO_TEXT_ENDS = 18,      /* the strings of a frozen table don't fill its text */
    INTAGLIO_UNUSED = 19,         /* a place of a frozen table that no string has isn't empty */
    INTAGLIO_NOT_FOUND = 20,      /* a string of a frozen table isn't found at its symbol */
    INTAGLIO_TOO_LONG = 21,       /* the strings have 2^32 bytes or more together, too many for a frozen table */
    INTAGLIO_EQUAL = 22,          /* two strings are equal: never of a table's strings, but no contract says so */
    INTAGLIO_NO_PLACES = 23,      /* the search for places in a frozen table failed: freeze with other keys */
    INTAGLIO_NOT_COLUMN = 24,     /* the bytes don't begin as a column does */
    INTAGLIO_BAD_WIDTH = 25,      /* the codes of a column haven't the least width that serves its dictionary */
    INTAGLIO_TRAILING_BYTES = 26, /* there are bytes behind the strings of a frozen table, or behind the last row of a column */
    INTAGLIO_BAD_SHARD = 27,      /* the number of a shard isn't below the number of shards; the rows of a column come from no dictionary that can be */
    INTAGLIO_OTHER_IDENTITY = 28, /* the identity in the header of a frozen table isn't that of its strings */
    INTAGLIO_DAMAGED = 29         /* the checksum of a column isn't that of its codes and its header */
};

/* Returns the text of a code, without a full stop. */
static inline const char *intaglio_message(intaglio_code code) {
    switch (code) {
        case INTAGLIO_DONE: return "success";
        case INTAGLIO_NO_TABLE: return "the handle holds no table";
        case INTAGLIO_FULL: return "the table is full";
        case INTAGLIO_NO_MEMORY: return "out of memory";
        case INTAGLIO_TOO_LARGE: return "the capacity or limit is out of range";
        case INTAGLIO_STALE: return "the mark is beyond the table's length";
        case INTAGLIO_NOT_UTF8: return "the string is not valid UTF-8";
        case INTAGLIO_INNER_ZERO: return "the C string has a zero byte before its end";
        case INTAGLIO_MISSING_ZERO: return "the C string has no zero byte";
        case INTAGLIO_BAD_ENDS: return "the ends of the batch are invalid, or its arrays differ in length";
        case INTAGLIO_NO_SYMBOL: return "the table has no such symbol";
        case INTAGLIO_NO_SPACE: return "the buffer is too short";
        case INTAGLIO_NO_KIND: return "no such kind of table";
        case INTAGLIO_NOT_FROZEN: return "not a frozen table";
        case INTAGLIO_OTHER_VERSION: return "a file of another version";
        case INTAGLIO_RESERVED: return "a reserved byte is not zero";
        case INTAGLIO_TOO_MANY: return "too many strings for a frozen table";
        case INTAGLIO_TRUNCATED: return "the bytes are truncated";
        case INTAGLIO_TEXT_ENDS: return "the strings of the frozen table do not fill its text";
        case INTAGLIO_UNUSED: return "a place of the frozen table without a string is not empty";
        case INTAGLIO_TOO_LONG: return "the strings are too long for a frozen table";
        case INTAGLIO_EQUAL: return "two strings are equal";
        case INTAGLIO_NO_PLACES: return "no places were found for the strings under these keys";
        case INTAGLIO_NOT_FOUND: return "a string of the frozen table is not found at its symbol";
        case INTAGLIO_NOT_COLUMN: return "not a column";
        case INTAGLIO_BAD_WIDTH: return "the codes do not have the width of the dictionary";
        case INTAGLIO_TRAILING_BYTES: return "there are bytes behind the last string or row";
        case INTAGLIO_BAD_SHARD: return "the number of the shard is not below the number of shards";
        case INTAGLIO_OTHER_IDENTITY: return "the identity is not that of the strings";
        case INTAGLIO_DAMAGED: return "the column is damaged: it has another checksum";
        default: return "unknown code";
    }
}

/* The number that check_all and frozen_find_all write for a string that isn't in the table. */
#define INTAGLIO_ABSENT UINT64_MAX

/* Returns INTAGLIO_VERSION of the library, as the header that it was built with has it. */
uint32_t intaglio_version(void);

/* Puts a new table into the handle, and frees the table that it held. `new` reserves capacity for 4096 strings, with_capacity for
 * exactly `capacity`; a table made by with_limit never holds more than `limit` strings. The keys are those of the hash function,
 * SipHash-1-3: random keys protect against strings that are chosen to collide.
 * Errors: NO_MEMORY, TOO_LARGE, NO_KIND. The handle then holds no table. */
INTAGLIO_MUST_USE intaglio_code intaglio_new(intaglio_table *table, uint32_t kind, uint64_t key0, uint64_t key1);
INTAGLIO_MUST_USE intaglio_code intaglio_with_capacity(intaglio_table *table, uint32_t kind, size_t capacity, uint64_t key0, uint64_t key1);
INTAGLIO_MUST_USE intaglio_code intaglio_with_limit(intaglio_table *table, uint32_t kind, size_t limit, uint64_t key0, uint64_t key1);

/* Frees the table. The handle then holds none; freeing it again does nothing. */
void intaglio_free(intaglio_table *table);

/* Interns a string: stores its symbol in *symbol. A new string is copied.
 * Errors: NO_TABLE, FULL, NO_MEMORY, and NOT_UTF8, INNER_ZERO, MISSING_ZERO for kinds that don't take all bytes. *symbol is then
 * unchanged. */
INTAGLIO_MUST_USE intaglio_code intaglio_intern(intaglio_table *table, const uint8_t *bytes, size_t len, uint32_t *symbol);

/* The same without a copy, but a packed table copies a new string all the same. The bytes must not change until the program ends. */
INTAGLIO_MUST_USE intaglio_code intaglio_intern_static(intaglio_table *table, const uint8_t *bytes, size_t len, uint32_t *symbol);

/* Returns whether a string is in the table. If so, its symbol is stored in *symbol; otherwise *symbol is unchanged. A string that
 * isn't valid for the kind is in no table. Only a path is tested for that, and other strings are looked up as they are. */
bool intaglio_check_interned(const intaglio_table *table, const uint8_t *bytes, size_t len, uint32_t *symbol);

/* Stores the address and the length of a symbol's bytes in *out. The bytes stay valid until the table is cleared, rolled back to
 * before the symbol, freed or replaced; interning doesn't move them, except in a packed table: there the pointer is valid only until
 * the next call that interns, reserves or shrinks. Returns false if there is no such symbol; *out is then unchanged. */
bool intaglio_get(const intaglio_table *table, uint32_t symbol, intaglio_spelling *out);

/* Stores the number of a symbol's bytes in *len, and copies them to the start of the buffer if it has space for all of them.
 * Returns false if there is no such symbol; then nothing is written. */
bool intaglio_copy(const intaglio_table *table, uint32_t symbol, uint8_t *buffer, size_t size, size_t *len);

/* Returns the number of strings, or 0 if there is no table. The symbols are the numbers below it. */
size_t intaglio_len(const intaglio_table *table);

/* Returns how many strings the table can hold before it has to grow, or 0 if there is no table. */
size_t intaglio_capacity(const intaglio_table *table);

/* Reserves capacity for `additional` more strings. The table then doesn't grow for that many new strings, but each copy of a
 * string is still allocated; in a packed table the buffer of all strings may still grow. Errors: NO_TABLE, TOO_LARGE, NO_MEMORY. */
INTAGLIO_MUST_USE intaglio_code intaglio_reserve(intaglio_table *table, size_t additional);

/* Shrinks the capacity to `min_capacity`, or to the number of strings if that is greater. Errors: NO_TABLE, NO_MEMORY. */
INTAGLIO_MUST_USE intaglio_code intaglio_shrink_to(intaglio_table *table, size_t min_capacity);

/* Removes all strings. The capacity and the keys stay, and the next symbol is 0. */
void intaglio_clear(intaglio_table *table);

/* Rolls the table back to the first `mark` strings, where `mark` is an earlier result of len. Errors: NO_TABLE, STALE. */
INTAGLIO_MUST_USE intaglio_code intaglio_take_back(intaglio_table *table, size_t mark);

/* A batch of strings is passed as their concatenated bytes and an array with the end of each: string i is the bytes from
 * ends[i - 1], or 0 for the first string, up to ends[i]. */

/* Interns a batch, all strings or none, and stores the symbol of each. `symbols_count` must equal `count`. The error is that of the
 * first string, in order, that can't be interned after those before it.
 * Errors: NO_TABLE, BAD_ENDS, FULL, NO_MEMORY, NOT_UTF8, INNER_ZERO, MISSING_ZERO. The contents of `symbols` are then unspecified. */
INTAGLIO_MUST_USE intaglio_code intaglio_intern_all(intaglio_table *table, const uint8_t *bytes, size_t len, const size_t *ends, size_t count, uint32_t *symbols, size_t symbols_count);

/* Looks up a batch, and stores the symbol of each string, or INTAGLIO_ABSENT if it isn't in the table or isn't valid for the
 * kind. `symbols_count` must equal `count`. Errors: NO_TABLE, BAD_ENDS. Nothing is then written. */
INTAGLIO_MUST_USE intaglio_code intaglio_check_all(const intaglio_table *table, const uint8_t *bytes, size_t len, const size_t *ends, size_t count, uint64_t *symbols, size_t symbols_count);

/* Copies the bytes of many symbols to the buffer, one after the other, and stores the end of each, in the form in which a batch
 * is passed. `ends_count` must equal `count`. Errors: NO_TABLE, BAD_ENDS; nothing is then written. NO_SYMBOL, NO_SPACE; the
 * strings before the one that isn't there or doesn't fit are then copied, with their ends, and nothing behind them is written. */
INTAGLIO_MUST_USE intaglio_code intaglio_copy_all(const intaglio_table *table, const uint32_t *symbols, size_t count, uint8_t *buffer, size_t size, size_t *ends, size_t ends_count);

/* A frozen table is a symbol table as one block of bytes, such as a mapped file: docs/FORMATS.md has the format. It has no handle, and
 * nothing is allocated or freed: each function takes the bytes. Any number of threads may read one at the same time.
 *
 * frozen_check says whether bytes are a frozen table. If they are, and stay as they were, the functions below it find each string at
 * its symbol. They never read outside the bytes, whatever these are. So bytes from a trusted source needn't be checked:
 * if they aren't a frozen table, what is found is still equal to what was sought, but a string may not be found, and a
 * symbol may have no string. */

/* Checks that these bytes are a frozen table. All of them are read.
 * Errors: NOT_FROZEN, OTHER_VERSION, NO_KIND, RESERVED, TOO_MANY, TRUNCATED, TEXT_ENDS, UNUSED, NOT_FOUND, NOT_UTF8. */
INTAGLIO_MUST_USE intaglio_code intaglio_frozen_check(const uint8_t *bytes, size_t len);

/* Looks up a batch, and stores the symbol of each string, or INTAGLIO_ABSENT if it isn't in the frozen table. `symbols_count` must
 * equal `count`. Errors: BAD_ENDS, and those of frozen_check that a header can have. Nothing is then written. */
INTAGLIO_MUST_USE intaglio_code intaglio_frozen_find_all(const uint8_t *bytes, size_t len, const uint8_t *strings, size_t strings_len, const size_t *ends, size_t count, uint64_t *symbols, size_t symbols_count);

/* Stores where the sections of a frozen table are. Only the header is read, and the length is compared with what it requires.
 * Errors: those of frozen_check that a header or the length can have. *sections is then unchanged. */
INTAGLIO_MUST_USE intaglio_code intaglio_frozen_sections(const uint8_t *bytes, size_t len, intaglio_sections *sections);

/* What opened_find and opened_get below call. The header isn't read. If the sections are those of other bytes, or were changed, what is found
 * is unspecified, but nothing outside the bytes is read. */
bool intaglio_frozen_find_in(const uint8_t *bytes, size_t len, const intaglio_sections *sections, const uint8_t *string, size_t string_len, uint32_t *symbol);
bool intaglio_frozen_get_in(const uint8_t *bytes, size_t len, const intaglio_sections *sections, uint32_t symbol, intaglio_spelling *out);

/* Opens a frozen table, and reads its header alone: for bytes that aren't trusted, call frozen_check before. The bytes must stay as they are for
 * as long as the calls below use them. Errors: those of frozen_sections. *opened is then unchanged. */
INTAGLIO_MUST_USE static inline intaglio_code intaglio_open(intaglio_opened *opened, const uint8_t *bytes, size_t len) {
    intaglio_code code = intaglio_frozen_sections(bytes, len, &opened->sections);
    if (code == INTAGLIO_DONE) {
        opened->bytes = bytes;
        opened->len = len;
    }
    return code;
}

/* Returns whether a string is in a frozen table. If so, its symbol is stored in *symbol; otherwise *symbol is unchanged. */
static inline bool intaglio_opened_find(const intaglio_opened *opened, const uint8_t *string, size_t len, uint32_t *symbol) {
    return intaglio_frozen_find_in(opened->bytes, opened->len, &opened->sections, string, len, symbol);
}

/* Stores the address and the length of a symbol's string in *out. Unless the length is 0, the address leads into the bytes. Returns false
 * if there is no such symbol; *out is then unchanged. */
static inline bool intaglio_opened_get(const intaglio_opened *opened, uint32_t symbol, intaglio_spelling *out) {
    return intaglio_frozen_get_in(opened->bytes, opened->len, &opened->sections, symbol, out);
}

/* Returns the number of strings. */
static inline size_t intaglio_opened_len(const intaglio_opened *opened) { return opened->sections.count; }

/* The same on bytes, which are opened each time: for one look-up alone. Of bytes that can't be opened, nothing is found, and the number
 * is 0. */
static inline bool intaglio_frozen_find(const uint8_t *bytes, size_t len, const uint8_t *string, size_t string_len, uint32_t *symbol) {
    intaglio_opened opened;
    return intaglio_open(&opened, bytes, len) == INTAGLIO_DONE && intaglio_opened_find(&opened, string, string_len, symbol);
}
static inline bool intaglio_frozen_get(const uint8_t *bytes, size_t len, uint32_t symbol, intaglio_spelling *out) {
    intaglio_opened opened;
    return intaglio_open(&opened, bytes, len) == INTAGLIO_DONE && intaglio_opened_get(&opened, symbol, out);
}
static inline size_t intaglio_frozen_len(const uint8_t *bytes, size_t len) {
    intaglio_opened opened;
    return intaglio_open(&opened, bytes, len) == INTAGLIO_DONE ? intaglio_opened_len(&opened) : 0;
}

/* Freezes a table: stores the number of bytes in *len, and copies them to the start of the buffer if it has space for all of them. The
 * strings are those of the table, with their symbols; a C string keeps its zero. They are UTF-8 if the kind is text, path, osstr or
 * packed_text. The keys are those of the hash function in the frozen table; if a string gets no place under them, key0 is one of the seven
 * numbers after it. The same strings under the same keys give the same bytes. NO_PLACES: other keys may serve, but strings can be chosen so
 * that known keys don't. Errors: NO_TABLE; NO_SPACE, with *len; TOO_MANY, TOO_LONG, NO_PLACES, NO_MEMORY, NOT_UTF8, EQUAL. But for NO_SPACE
 * nothing is then written. */
INTAGLIO_MUST_USE intaglio_code intaglio_freeze(const intaglio_table *table, uint64_t key0, uint64_t key1, uint8_t *buffer, size_t size, size_t *len);

/* The same as freeze, but the frozen table is the shard id->shard of id->shards ones, which together are the dictionary whose identity
 * is id->hash0 and id->hash1. Whether the strings belong to that shard isn't checked. The other fields aren't read. With one shard it is what
 * freeze makes, and the identity is that of the strings. Errors: those of freeze; BAD_SHARD. */
INTAGLIO_MUST_USE intaglio_code intaglio_freeze_shard(const intaglio_table *table, uint64_t key0, uint64_t key1, const intaglio_dictionary_id *id, uint8_t *buffer, size_t size, size_t *len);

/* Stores what the dictionary of the table's strings is, if it is in one file. Errors: NO_TABLE. *id is then unchanged. */
INTAGLIO_MUST_USE intaglio_code intaglio_own_id(const intaglio_table *table, intaglio_dictionary_id *id);

/* Stores which dictionary a frozen table is, or which shard of one: `count` is the number of its own strings. Only the header is read.
 * The shards of one dictionary have the same kind, hashes and number of shards, each has its own number, and `count` of the dictionary is
 * the sum of theirs. Errors: those of frozen_check that a header can have. *id is then unchanged. */
INTAGLIO_MUST_USE intaglio_code intaglio_frozen_id(const uint8_t *bytes, size_t len, intaglio_dictionary_id *id);

/* Interns all strings of a frozen table in its order, all or none, and stores the symbol of each: string i of the frozen table is then that
 * of symbols[i], so codes of the frozen table become codes of the table. `symbols_count` must equal frozen_len. The error is that of the
 * first string, in order, that can't be interned after those before it. The bytes needn't be checked: if they aren't a frozen table, but have
 * its header and their strings fill the text, these strings are interned.
 * Errors: NO_TABLE, BAD_ENDS, FULL, NO_MEMORY, NOT_UTF8, INNER_ZERO, MISSING_ZERO, and those of frozen_check that a header or the ends can
 * have. The contents of `symbols` are then unspecified. */
INTAGLIO_MUST_USE intaglio_code intaglio_absorb(intaglio_table *table, const uint8_t *frozen, size_t len, uint32_t *symbols, size_t symbols_count);

/* Returns how many bytes a frozen table of the strings has, or of an empty one if there is no table. It reads the length of each string. No contract
 * covers this function, but freeze returns NO_SPACE if the number is too small. */
static inline size_t intaglio_frozen_size(const intaglio_table *table) {
    intaglio_spelling out;
    size_t count = intaglio_len(table), places = count + count / 19 + 2, size = 128 + 5 * places + 4 * count + 2 * (count / 3 + 1);
    for (size_t i = 0; i < count; i++)
        if (intaglio_get(table, (uint32_t)i, &out)) size += out.len;
    return size;
}

/* Returns whether the table is one of UTF-8 strings, which frozen_check has then found them to be, or false if the header is invalid. */
bool intaglio_frozen_is_text(const uint8_t *bytes, size_t len);

/* A column is a list of codes in one block of bytes, such as a mapped file, that says which dictionary they belong to: docs/FORMATS.md has the
 * format. The dictionary is a frozen table, or several, its shards, and the code of a row is the symbol of its string there, or
 * INTAGLIO_MISSING. Symbols of a shard count on from those of the shards before it. As a frozen table, a column has no handle, and any number of
 * threads may read one at the same time.
 *
 * column_check says whether bytes are a column. The functions below it never read outside the bytes, whatever these are; of bytes that weren't
 * checked, a code may be that of no string. Rows are counted from 0. */

/* The code of a row whose string the dictionary doesn't have. It is never a symbol. */
#define INTAGLIO_MISSING UINT32_MAX

/* Checks that these bytes are a column. All of them are read.
 * Errors: NOT_COLUMN, OTHER_VERSION, NO_KIND, TOO_MANY, BAD_WIDTH, BAD_SHARD, RESERVED, TRUNCATED, TRAILING_BYTES, DAMAGED, NO_SYMBOL. */
INTAGLIO_MUST_USE intaglio_code intaglio_column_check(const uint8_t *bytes, size_t len);

/* Returns the number of rows, or 0 if the header is invalid or doesn't agree with the number of bytes. */
size_t intaglio_column_len(const uint8_t *bytes, size_t len);

/* Returns how many bytes a code has, 1, 2 or 4, or 0 as column_len. The codes begin at byte 128, little-endian; the greatest of 1 or 2 bytes
 * stands for INTAGLIO_MISSING. */
size_t intaglio_column_width(const uint8_t *bytes, size_t len);

/* Stores which dictionary a column belongs to. In the map of a shard, it is the shard with the same number, and `count` is the number of its
 * strings; otherwise `shard` is 0. Errors: those of column_check that a header, or the number of bytes, can have. *id is then unchanged. */
INTAGLIO_MUST_USE intaglio_code intaglio_column_id(const uint8_t *bytes, size_t len, intaglio_dictionary_id *id);

/* Stores from which dictionary the rows of a column come. If it is a map, row i is the string with symbol i of this dictionary, or of this
 * shard of it, and `count` is the number of rows. If the rows are lines, `shards` is 0. Errors: those of column_id. *id is then unchanged. */
INTAGLIO_MUST_USE intaglio_code intaglio_column_source(const uint8_t *bytes, size_t len, intaglio_dictionary_id *id);

/* Returns whether two dictionaries, or two shards, have the same strings in the same order, and the same kind, as far as their hashes say: two
 * hashes of eight bytes, which aren't made to resist strings that somebody chose. A dictionary in shards can be made in several ways, and
 * then differs from one with the same strings. */
static inline bool intaglio_same_dictionary(const intaglio_dictionary_id *one, const intaglio_dictionary_id *other) {
    return one->is_text == other->is_text && one->count == other->count && one->hash0 == other->hash0 && one->hash1 == other->hash1 && one->shards == other->shards && one->shard == other->shard;
}

/* Stores the code of a row. Returns false if there is no such row; *code is then unchanged. */
bool intaglio_column_code(const uint8_t *bytes, size_t len, size_t row, uint32_t *code);

/* Stores the codes of the rows from `from` on, as many as there are places and rows, and returns how many that is. */
size_t intaglio_column_codes(const uint8_t *bytes, size_t len, size_t from, uint32_t *codes, size_t count);

/* Returns how many rows have a code, and stores the first of them in ascending order, as many as there are places. With a count of 0 the
 * rows are only counted. */
size_t intaglio_column_rows(const uint8_t *bytes, size_t len, uint32_t code, uint64_t *rows, size_t count);

/* Stores how many rows have the code of each string of the dictionary, and in *missing how many have INTAGLIO_MISSING. `count` must be the
 * number of the dictionary's strings. Errors: BAD_ENDS, and those of column_id. Nothing is then written. */
INTAGLIO_MUST_USE intaglio_code intaglio_column_counts(const uint8_t *bytes, size_t len, uint64_t *counts, size_t count, uint64_t *missing);

/* Makes a column of lines that have these codes: stores the number of its bytes in *len, and copies them to the start of the buffer if it has space
 * for all of them, as it has with intaglio_column_size. The same codes under the same dictionary give the same bytes. Errors: NO_SYMBOL,
 * TOO_MANY, BAD_SHARD for a dictionary without shards, NO_MEMORY; nothing is then written. NO_SPACE, with *len. */
INTAGLIO_MUST_USE intaglio_code intaglio_column_write(const intaglio_dictionary_id *id, const uint32_t *codes, size_t count, uint8_t *buffer, size_t size, size_t *len);

/* Returns how many bytes a column of so many codes has. No contract covers this function, but column_write returns NO_SPACE if the number is
 * too small. */
static inline size_t intaglio_column_size(const intaglio_dictionary_id *id, size_t count) {
    size_t width = id->count <= 255 ? 1 : (id->count <= 65535 ? 2 : 4);
    return 128 + width * count;
}

/* A dictionary in shards is several frozen tables, of which each has the strings that belong to it: docs/FORMATS.md has the format. So equal
 * strings of several dictionaries meet in one shard, on whatever machine. */

/* Returns which shard a string belongs to, of `shards` ones: from 0 to shards - 1. It depends on the bytes and on `shards` alone. If `shards` is 0,
 * it is 0. */
uint32_t intaglio_shard_of(uint32_t shards, const uint8_t *string, size_t len);

/* Stores the identity of a dictionary whose shards are these, in their order, as own_id has each of them. Errors: NO_MEMORY; nothing is then
 * written. */
INTAGLIO_MUST_USE intaglio_code intaglio_set_of_shards(const intaglio_dictionary_id *ids, size_t count, uint64_t *hash0, uint64_t *hash1);

/* Stores the identity of a dictionary in so many shards, each of which is merged of the shards with its number of several dictionaries, the
 * parts, in their order. Of each part only the hashes are read, so one of its shards says enough. Errors: NO_MEMORY; nothing is then written. */
INTAGLIO_MUST_USE intaglio_code intaglio_set_of_merge(uint32_t shards, const intaglio_dictionary_id *parts, size_t count, uint64_t *hash0, uint64_t *hash1);

/* The functions on tables for each kind, on a struct of that kind, such as intaglio_text. Initialize it with INTAGLIO_NONE. */
/* clang-format off */
#define INTAGLIO_NONE {{false, NULL}}
#define INTAGLIO_KIND(NAME, KIND) \
    typedef struct { intaglio_table table; } intaglio_##NAME; \
    INTAGLIO_MUST_USE static inline intaglio_code intaglio_##NAME##_new(intaglio_##NAME *table, uint64_t key0, uint64_t key1) { return intaglio_new(&table->table, KIND, key0, key1); } \
    INTAGLIO_MUST_USE static inline intaglio_code intaglio_##NAME##_with_capacity(intaglio_##NAME *table, size_t capacity, uint64_t key0, uint64_t key1) { return intaglio_with_capacity(&table->table, KIND, capacity, key0, key1); } \
    INTAGLIO_MUST_USE static inline intaglio_code intaglio_##NAME##_with_limit(intaglio_##NAME *table, size_t limit, uint64_t key0, uint64_t key1) { return intaglio_with_limit(&table->table, KIND, limit, key0, key1); } \
    static inline void intaglio_##NAME##_free(intaglio_##NAME *table) { intaglio_free(&table->table); } \
    INTAGLIO_MUST_USE static inline intaglio_code intaglio_##NAME##_intern(intaglio_##NAME *table, const uint8_t *bytes, size_t len, uint32_t *symbol) { return intaglio_intern(&table->table, bytes, len, symbol); } \
    INTAGLIO_MUST_USE static inline intaglio_code intaglio_##NAME##_intern_static(intaglio_##NAME *table, const uint8_t *bytes, size_t len, uint32_t *symbol) { return intaglio_intern_static(&table->table, bytes, len, symbol); } \
    static inline bool intaglio_##NAME##_check_interned(const intaglio_##NAME *table, const uint8_t *bytes, size_t len, uint32_t *symbol) { return intaglio_check_interned(&table->table, bytes, len, symbol); } \
    static inline bool intaglio_##NAME##_get(const intaglio_##NAME *table, uint32_t symbol, intaglio_spelling *out) { return intaglio_get(&table->table, symbol, out); } \
    static inline bool intaglio_##NAME##_copy(const intaglio_##NAME *table, uint32_t symbol, uint8_t *buffer, size_t size, size_t *len) { return intaglio_copy(&table->table, symbol, buffer, size, len); } \
    static inline size_t intaglio_##NAME##_len(const intaglio_##NAME *table) { return intaglio_len(&table->table); } \
    static inline size_t intaglio_##NAME##_capacity(const intaglio_##NAME *table) { return intaglio_capacity(&table->table); } \
    INTAGLIO_MUST_USE static inline intaglio_code intaglio_##NAME##_reserve(intaglio_##NAME *table, size_t additional) { return intaglio_reserve(&table->table, additional); } \
    INTAGLIO_MUST_USE static inline intaglio_code intaglio_##NAME##_shrink_to(intaglio_##NAME *table, size_t min_capacity) { return intaglio_shrink_to(&table->table, min_capacity); } \
    static inline void intaglio_##NAME##_clear(intaglio_##NAME *table) { intaglio_clear(&table->table); } \
    INTAGLIO_MUST_USE static inline intaglio_code intaglio_##NAME##_take_back(intaglio_##NAME *table, size_t mark) { return intaglio_take_back(&table->table, mark); } \
    INTAGLIO_MUST_USE static inline intaglio_code intaglio_##NAME##_intern_all(intaglio_##NAME *table, const uint8_t *bytes, size_t len, const size_t *ends, size_t count, uint32_t *symbols, size_t symbols_count) { return intaglio_intern_all(&table->table, bytes, len, ends, count, symbols, symbols_count); } \
    INTAGLIO_MUST_USE static inline intaglio_code intaglio_##NAME##_check_all(const intaglio_##NAME *table, const uint8_t *bytes, size_t len, const size_t *ends, size_t count, uint64_t *symbols, size_t symbols_count) { return intaglio_check_all(&table->table, bytes, len, ends, count, symbols, symbols_count); } \
    INTAGLIO_MUST_USE static inline intaglio_code intaglio_##NAME##_copy_all(const intaglio_##NAME *table, const uint32_t *symbols, size_t count, uint8_t *buffer, size_t size, size_t *ends, size_t ends_count) { return intaglio_copy_all(&table->table, symbols, count, buffer, size, ends, ends_count); } \
    INTAGLIO_MUST_USE static inline intaglio_code intaglio_##NAME##_freeze(const intaglio_##NAME *table, uint64_t key0, uint64_t key1, uint8_t *buffer, size_t size, size_t *len) { return intaglio_freeze(&table->table, key0, key1, buffer, size, len); } \
    INTAGLIO_MUST_USE static inline intaglio_code intaglio_##NAME##_freeze_shard(const intaglio_##NAME *table, uint64_t key0, uint64_t key1, const intaglio_dictionary_id *id, uint8_t *buffer, size_t size, size_t *len) { return intaglio_freeze_shard(&table->table, key0, key1, id, buffer, size, len); } \
    INTAGLIO_MUST_USE static inline intaglio_code intaglio_##NAME##_own_id(const intaglio_##NAME *table, intaglio_dictionary_id *id) { return intaglio_own_id(&table->table, id); } \
    INTAGLIO_MUST_USE static inline intaglio_code intaglio_##NAME##_absorb(intaglio_##NAME *table, const uint8_t *frozen, size_t len, uint32_t *symbols, size_t symbols_count) { return intaglio_absorb(&table->table, frozen, len, symbols, symbols_count); }

INTAGLIO_KIND(text, INTAGLIO_TEXT)
INTAGLIO_KIND(bytes, INTAGLIO_BYTES)
INTAGLIO_KIND(cstr, INTAGLIO_CSTR)
INTAGLIO_KIND(path, INTAGLIO_PATH)
INTAGLIO_KIND(osstr, INTAGLIO_OSSTR)
INTAGLIO_KIND(bstr, INTAGLIO_BSTR)
INTAGLIO_KIND(packed_text, INTAGLIO_PACKED_TEXT)
INTAGLIO_KIND(packed_bytes, INTAGLIO_PACKED_BYTES)
#undef INTAGLIO_KIND
/* clang-format on */

#ifdef __cplusplus
}
#endif
#endif
