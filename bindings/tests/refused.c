/* Makes each allocation fail in turn, in a run of every call that may allocate, on a table of bytes and on a packed one. The very call in which it fails must return
 * NO_MEMORY and leave the strings unchanged. Linked with -Wl,--wrap=malloc,--wrap=realloc. */
#include "tests.h"

/* How many allocations succeed before one fails; if negative, none fails. */
static long left = -1;
static long refused;

static bool grants(void) {
    if (left < 0 || left-- > 0) return true;
    refused++;
    return false;
}

void *__wrap_malloc(size_t size) { return grants() ? __real_malloc(size) : NULL; }
void *__wrap_realloc(void *old, size_t size) { return grants() ? __real_realloc(old, size) : NULL; }

/* The strings of a table: each is its symbol in decimals. */
static size_t spell(char *into, uint32_t symbol) { return (size_t)sprintf(into, "%u", symbol); }

static void holds(intaglio_table *table, size_t count) {
    WANT(intaglio_len(table) == count);
    for (uint32_t symbol = 0; symbol < count; symbol++) {
        char word[16];
        size_t len = spell(word, symbol);
        intaglio_spelling out;
        uint32_t found;
        WANT(intaglio_get(table, symbol, &out) && is_same(&out, (uint8_t *)word, len));
        WANT(intaglio_check_interned(table, (const uint8_t *)word, len, &found) && found == symbol);
    }
}

/* Whether the call succeeded. Then no allocation failed in it, and otherwise one did. */
static bool done(uint32_t code, long before) {
    if (code == INTAGLIO_DONE) WANT(refused == before);
    else WANT(code == INTAGLIO_NO_MEMORY && refused == before + 1);
    return code == INTAGLIO_DONE;
}

/* Makes a call until it succeeds. After each time that it failed the table has so many strings. */
#define EACH(CALL, COUNT) \
    for (long before = refused; !done(CALL, before); before = refused, holds(&table, COUNT))

/* One run, on a table of the kind. */
static void run(uint32_t kind) {
    intaglio_table table = INTAGLIO_TABLE_NONE;
    uint32_t symbol, symbols[14];
    uint8_t bytes[64], frozen[1024];
    size_t ends[8], len = 0, size;
    EACH(intaglio_with_capacity(&table, kind, 2, 1, 2), 0)
    WANT(!table.live);
    for (uint32_t i = 0; i < 5; i++) {
        char word[16];
        EACH(intaglio_intern(&table, (const uint8_t *)word, spell(word, i), &symbol), i) {}
        WANT(symbol == i);
    }
    for (uint32_t i = 0; i < 8; i++) ends[i] = len += spell((char *)bytes + len, 5 + i);
    EACH(intaglio_intern_all(&table, bytes, len, ends, 8, symbols, 8), 5) {}
    for (uint32_t i = 0; i < 8; i++) WANT(symbols[i] == 5 + i);
    holds(&table, 13);
    EACH(intaglio_intern_static(&table, (const uint8_t *)"13", 2, &symbol), 13) {}
    EACH(intaglio_reserve(&table, 100), 14) {}
    WANT(intaglio_capacity(&table) >= 114);
    /* If an allocation of a shrink after its first fails, nothing may report it: a list then keeps its memory. */
    long first = refused;
    uint32_t code = intaglio_shrink_to(&table, 0);
    WANT(code == INTAGLIO_DONE || (code == INTAGLIO_NO_MEMORY && refused == first + 1));
    holds(&table, 14);
    EACH(intaglio_freeze(&table, 1, 2, frozen, sizeof frozen, &size), 14) {}
    WANT(intaglio_frozen_check(frozen, size) == INTAGLIO_DONE && intaglio_frozen_len(frozen, size) == 14);
    intaglio_dictionary_id ids[2];
    uint64_t hash0 = 7, hash1 = 7;
    WANT(intaglio_frozen_id(frozen, size, ids) == INTAGLIO_DONE);
    ids[1] = ids[0];
    EACH(intaglio_set_of_shards(ids, 2, &hash0, &hash1), 14)
    WANT(hash0 == 7 && hash1 == 7);
    uint64_t of_shards = hash0;
    EACH(intaglio_set_of_merge(2, ids, 2, &hash0, &hash1), 14)
    WANT(hash0 == of_shards);
    WANT(hash0 != of_shards && of_shards != 7);
    WANT(intaglio_take_back(&table, 5) == INTAGLIO_DONE);
    EACH(intaglio_absorb(&table, frozen, size, symbols, 14), 5) {}
    for (uint32_t i = 0; i < 14; i++) WANT(symbols[i] == i);
    holds(&table, 14);
    intaglio_free(&table);
}

/* The number of requests of a run, each of which was refused in turn. */
static long refuse_each(uint32_t kind) {
    long nth = 0;
    for (;; nth++) {
        left = nth;
        refused = 0;
        sprintf(which, "request %ld: ", nth);
        run(kind);
        if (refused == 0) return nth;
    }
}

int main(void) {
    long plain = refuse_each(INTAGLIO_BYTES), packed = refuse_each(INTAGLIO_PACKED_BYTES);
    printf("%ld requests, and %ld of a packed table, each refused in turn\n", plain, packed);
    return plain == 0 || packed == 0;
}
