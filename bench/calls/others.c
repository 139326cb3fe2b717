/* Times the calls of calls.c on interners that C programs make of a hash table: khash, uthash and GLib's. Each keeps a copy of a new
 * string in a block of its own, and an array of the strings by their numbers. Without -DKHASH, -DUTHASH or -DGLIB that one is left out.
 *
 *     others NEW SHUFFLED ABSENT TURNS */
#define _GNU_SOURCE
#include "lines.h"

/* Strings by their numbers. */
typedef struct {
    char **items;
    size_t count, room;
} names;

static uint32_t add_name(names *all, char *at) {
    if (all->count == all->room) {
        all->room = all->room ? 2 * all->room : 4096;
        all->items = realloc(all->items, all->room * sizeof *all->items);
        if (!all->items) exit(2);
    }
    all->items[all->count] = at;
    return (uint32_t)all->count++;
}

static char *copied(string s) {
    char *at = malloc(s.len + 1);
    if (!at) exit(2);
    return memcpy(at, s.at, s.len + 1);
}

static void free_names(names *all) {
    for (size_t i = 0; i < all->count; i++) free(all->items[i]);
    free(all->items);
}

/* An interner: NAME_intern returns the number of a string, NAME_find too or UINT32_MAX. */
#define EACH(NAME) \
    static uint64_t NAME##_intern_each(void *table, strings of) { \
        uint64_t sum = 0; \
        for (size_t i = 0; i < of.count; i++) sum += NAME##_intern(table, of.items[i]); \
        return sum; \
    } \
    static uint64_t NAME##_find_each(void *table, strings of) { \
        uint64_t sum = 0; \
        for (size_t i = 0; i < of.count; i++) sum += NAME##_find(table, of.items[i]); \
        return sum; \
    } \
    static void NAME##_turn(const char *row, strings fresh, strings shuffled, strings absent) { \
        void *table = NAME##_new(); \
        measure(row, "new", NAME##_intern_each, table, fresh); \
        measure(row, "again", NAME##_intern_each, table, fresh); \
        measure(row, "found", NAME##_find_each, table, fresh); \
        measure(row, "again, shuffled", NAME##_intern_each, table, shuffled); \
        measure(row, "found, shuffled", NAME##_find_each, table, shuffled); \
        measure(row, "absent", NAME##_find_each, table, absent); \
        NAME##_free(table); \
    }

#ifdef KHASH
#include <htslib/khash.h>
KHASH_MAP_INIT_STR(numbers, uint32_t)
typedef struct {
    khash_t(numbers) *numbers;
    names names;
} khash;

static void *khash_new(void) {
    khash *table = calloc(1, sizeof *table);
    if (!table || !(table->numbers = kh_init(numbers))) exit(2);
    return table;
}

static uint32_t khash_find(void *table, string s) {
    khash_t(numbers) *numbers = ((khash *)table)->numbers;
    khint_t at = kh_get(numbers, numbers, (const char *)s.at);
    return at == kh_end(numbers) ? UINT32_MAX : kh_val(numbers, at);
}

static uint32_t khash_intern(void *table, string s) {
    khash *all = table;
    int status;
    khint_t at = kh_put(numbers, all->numbers, (const char *)s.at, &status);
    if (status == 0) return kh_val(all->numbers, at);
    char *own = copied(s);
    kh_key(all->numbers, at) = own;
    return kh_val(all->numbers, at) = add_name(&all->names, own);
}

static void khash_free(void *table) {
    khash *all = table;
    kh_destroy(numbers, all->numbers);
    free_names(&all->names);
    free(all);
}
EACH(khash)
#endif

#ifdef UTHASH
#include <uthash.h>
typedef struct {
    UT_hash_handle hh;
    uint32_t number;
    char at[];
} uthash_entry;
typedef struct {
    uthash_entry *first;
    names names;
} uthash;

static void *ut_new(void) {
    uthash *table = calloc(1, sizeof *table);
    if (!table) exit(2);
    return table;
}

static uint32_t ut_find(void *table, string s) {
    uthash_entry *entry;
    HASH_FIND(hh, ((uthash *)table)->first, s.at, s.len, entry);
    return entry ? entry->number : UINT32_MAX;
}

static uint32_t ut_intern(void *table, string s) {
    uthash *all = table;
    uthash_entry *entry;
    unsigned hash;
    HASH_VALUE(s.at, s.len, hash);
    HASH_FIND_BYHASHVALUE(hh, all->first, s.at, s.len, hash, entry);
    if (entry) return entry->number;
    entry = malloc(sizeof *entry + s.len);
    if (!entry) exit(2);
    memcpy(entry->at, s.at, s.len);
    entry->number = add_name(&all->names, (char *)entry);
    HASH_ADD_KEYPTR_BYHASHVALUE(hh, all->first, entry->at, s.len, hash, entry);
    return entry->number;
}

static void ut_free(void *table) {
    uthash *all = table;
    HASH_CLEAR(hh, all->first);
    free_names(&all->names);
    free(all);
}
EACH(ut)
#endif

#ifdef GLIB
#include <glib.h>
typedef struct {
    GHashTable *numbers;
    names names;
} glib;

static void *glib_new(void) {
    glib *table = calloc(1, sizeof *table);
    if (!table) exit(2);
    table->numbers = g_hash_table_new(g_str_hash, g_str_equal);
    return table;
}

static uint32_t glib_find(void *table, string s) {
    gpointer number;
    return g_hash_table_lookup_extended(((glib *)table)->numbers, s.at, NULL, &number) ? GPOINTER_TO_UINT(number) : UINT32_MAX;
}

static uint32_t glib_intern(void *table, string s) {
    glib *all = table;
    uint32_t number = glib_find(table, s);
    if (number != UINT32_MAX) return number;
    char *own = copied(s);
    number = add_name(&all->names, own);
    g_hash_table_insert(all->numbers, own, GUINT_TO_POINTER(number));
    return number;
}

static void glib_free(void *table) {
    glib *all = table;
    g_hash_table_destroy(all->numbers);
    free_names(&all->names);
    free(all);
}
EACH(glib)
#endif

int main(int count, char **words) {
    if (count != 5) return 2;
    strings fresh = read_lines(words[1]), shuffled = read_lines(words[2]), absent = read_lines(words[3]);
    for (int i = 0; i < atoi(words[4]); i++) {
#ifdef KHASH
        khash_turn("khash", fresh, shuffled, absent);
#endif
#ifdef UTHASH
        ut_turn("uthash", fresh, shuffled, absent);
#endif
#ifdef GLIB
        glib_turn("GHashTable", fresh, shuffled, absent);
#endif
    }
    return 0;
}
