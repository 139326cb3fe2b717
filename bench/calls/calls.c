/* Times calls from C on the lines of files: prints for each a row, a column and nanoseconds per call.
 *
 *     calls NEW SHUFFLED ABSENT TURNS
 *
 * SHUFFLED has the lines of NEW in another order, and ABSENT others. Each string is a block of its own. */
#define _POSIX_C_SOURCE 199309L
#include "intaglio.h"
#include "lines.h"

static uint64_t intern_each(void *table, strings of) {
    uint64_t sum = 0;
    for (size_t i = 0; i < of.count; i++) {
        uint32_t symbol;
        if (intaglio_intern(table, of.items[i].at, of.items[i].len, &symbol) != INTAGLIO_DONE) exit(2);
        sum += symbol;
    }
    return sum;
}

static uint64_t find_each(void *table, strings of) {
    uint64_t sum = 0;
    for (size_t i = 0; i < of.count; i++) {
        uint32_t symbol;
        if (intaglio_check_interned(table, of.items[i].at, of.items[i].len, &symbol)) sum += symbol;
    }
    return sum;
}

static uint64_t get_each(void *table, strings of) {
    uint64_t sum = 0;
    for (size_t i = 0; i < of.count; i++) {
        intaglio_spelling out;
        if (intaglio_get(table, (uint32_t)i, &out)) sum += out.len;
    }
    return sum;
}

static void turn(const char *row, uint32_t kind, strings fresh, strings shuffled, strings absent) {
    intaglio_table table = INTAGLIO_TABLE_NONE;
    if (intaglio_new(&table, kind, 1, 2) != INTAGLIO_DONE) exit(2);
    measure(row, "new", intern_each, &table, fresh);
    measure(row, "again", intern_each, &table, fresh);
    measure(row, "found", find_each, &table, fresh);
    measure(row, "again, shuffled", intern_each, &table, shuffled);
    measure(row, "found, shuffled", find_each, &table, shuffled);
    measure(row, "absent", find_each, &table, absent);
    measure(row, "get", get_each, &table, fresh);
    intaglio_clear(&table);
    measure(row, "new after clear", intern_each, &table, fresh);
    intaglio_free(&table);
}

static uint64_t frozen_find_each(void *table, strings of) {
    const intaglio_opened *opened = table;
    uint64_t sum = 0;
    for (size_t i = 0; i < of.count; i++) {
        uint32_t symbol;
        if (intaglio_frozen_find(opened->bytes, opened->len, of.items[i].at, of.items[i].len, &symbol)) sum += symbol;
    }
    return sum;
}

static uint64_t frozen_get_each(void *table, strings of) {
    const intaglio_opened *opened = table;
    uint64_t sum = 0;
    for (size_t i = 0; i < of.count; i++) {
        intaglio_spelling out;
        if (intaglio_frozen_get(opened->bytes, opened->len, (uint32_t)i, &out)) sum += out.len;
    }
    return sum;
}

static uint64_t opened_find_each(void *table, strings of) {
    uint64_t sum = 0;
    for (size_t i = 0; i < of.count; i++) {
        uint32_t symbol;
        if (intaglio_opened_find(table, of.items[i].at, of.items[i].len, &symbol)) sum += symbol;
    }
    return sum;
}

static uint64_t opened_get_each(void *table, strings of) {
    uint64_t sum = 0;
    for (size_t i = 0; i < of.count; i++) {
        intaglio_spelling out;
        if (intaglio_opened_get(table, (uint32_t)i, &out)) sum += out.len;
    }
    return sum;
}

/* A frozen table of the strings, by calls that read its header each time, and opened. */
static void frozen_turn(strings fresh, strings shuffled, strings absent) {
    intaglio_table table = INTAGLIO_TABLE_NONE;
    intaglio_opened opened;
    if (intaglio_new(&table, INTAGLIO_BYTES, 1, 2) != INTAGLIO_DONE) exit(2);
    (void)intern_each(&table, fresh);
    size_t len = intaglio_frozen_size(&table);
    uint8_t *bytes = malloc(len);
    if (!bytes || intaglio_freeze(&table, 1, 2, bytes, len, &len) != INTAGLIO_DONE) exit(2);
    intaglio_free(&table);
    if (intaglio_open(&opened, bytes, len) != INTAGLIO_DONE) exit(2);
    measure("C, frozen", "found", frozen_find_each, &opened, fresh);
    measure("C, frozen", "found, shuffled", frozen_find_each, &opened, shuffled);
    measure("C, frozen", "absent", frozen_find_each, &opened, absent);
    measure("C, frozen", "get", frozen_get_each, &opened, fresh);
    measure("C, frozen and opened", "found", opened_find_each, &opened, fresh);
    measure("C, frozen and opened", "found, shuffled", opened_find_each, &opened, shuffled);
    measure("C, frozen and opened", "absent", opened_find_each, &opened, absent);
    measure("C, frozen and opened", "get", opened_get_each, &opened, fresh);
    free(bytes);
}

int main(int count, char **words) {
    if (count != 5) return 2;
    strings fresh = read_lines(words[1]), shuffled = read_lines(words[2]), absent = read_lines(words[3]);
    for (int i = 0; i < atoi(words[4]); i++) {
        turn("C, texts", INTAGLIO_TEXT, fresh, shuffled, absent);
        turn("C, bytes", INTAGLIO_BYTES, fresh, shuffled, absent);
        turn("C, packed texts", INTAGLIO_PACKED_TEXT, fresh, shuffled, absent);
        turn("C, packed bytes", INTAGLIO_PACKED_BYTES, fresh, shuffled, absent);
        frozen_turn(fresh, shuffled, absent);
    }
    return 0;
}
