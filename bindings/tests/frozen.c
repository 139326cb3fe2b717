/* Reads a frozen table in a file, whose strings come on standard input, each on a line: string i is at symbol i. A table of these strings
 * must be frozen to the same bytes, under the keys 3 and 4. Then cuts the file at each length and changes each byte, and writes the code
 * of each, and the numbers of the strings in it: no call may read outside the bytes. */
#include "tests.h"

enum {
    LINES = 1 << 16,
    BYTES = 1 << 22
};

static uint8_t text[BYTES];
static size_t ends[LINES];
static uint64_t symbols[LINES];
static size_t count;

/* The lines of standard input, without their ends. */
static void read_lines(void) {
    size_t at = 0;
    for (int c; (c = getchar()) != EOF;) {
        if (c != '\n') text[at++] = (uint8_t)c;
        else ends[count++] = at;
        WANT(at < BYTES && count < LINES);
    }
}

static size_t start_of(size_t i) { return i == 0 ? 0 : ends[i - 1]; }

/* Reads and looks up in bytes, or in what was opened of them. */
static bool get(const uint8_t *bytes, size_t len, const intaglio_opened *opened, size_t i, intaglio_spelling *out) {
    return opened ? intaglio_opened_get(opened, (uint32_t)i, out) : intaglio_frozen_get(bytes, len, (uint32_t)i, out);
}

static bool find(const uint8_t *bytes, size_t len, const intaglio_opened *opened, const uint8_t *string, size_t size, uint32_t *symbol) {
    return opened ? intaglio_opened_find(opened, string, size, symbol) : intaglio_frozen_find(bytes, len, string, size, symbol);
}

/* Each string is at its symbol, and is found there, and others aren't. */
static void compare_strings(const uint8_t *bytes, size_t len, const intaglio_opened *opened) {
    uint32_t symbol = 7;
    intaglio_spelling out = {NULL, 7};
    for (size_t i = 0; i < count; i++) {
        const uint8_t *string = text + start_of(i);
        size_t size = ends[i] - start_of(i);
        WANT(get(bytes, len, opened, i, &out) && is_same(&out, string, size));
        WANT(size == 0 || (out.at >= bytes && out.at + size <= bytes + len));
        WANT(find(bytes, len, opened, string, size, &symbol) && symbol == i);
    }
    out.len = symbol = 7;
    WANT(!get(bytes, len, opened, count, &out) && !get(bytes, len, opened, UINT32_MAX, &out) && out.len == 7);
    WANT(!find(bytes, len, opened, (const uint8_t *)"absent\n", 7, &symbol) && symbol == 7);
}

static void compare(const uint8_t *bytes, size_t len) {
    WANT(intaglio_frozen_check(bytes, len) == INTAGLIO_DONE && intaglio_frozen_len(bytes, len) == count);
    compare_strings(bytes, len, NULL);
    WANT(intaglio_frozen_find_all(bytes, len, text, ends[count - 1], ends, count, symbols, count) == INTAGLIO_DONE);
    for (size_t i = 0; i < count; i++) WANT(symbols[i] == i);
    WANT(intaglio_frozen_find_all(bytes, len, text, 0, ends, count, symbols, count - 1) == INTAGLIO_BAD_ENDS);
    const size_t end = 7;
    WANT(intaglio_frozen_find_all(bytes, len, (const uint8_t *)"absent\n", 7, &end, 1, symbols, 1) == INTAGLIO_DONE && symbols[0] == INTAGLIO_ABSENT);
}

/* The same of an opened table, whose header isn't read again: it can be another's. */
static void compare_opened(const uint8_t *bytes, size_t len) {
    intaglio_opened opened;
    uint8_t *headless = own_copy(bytes, len);
    WANT(intaglio_open(&opened, bytes, len) == INTAGLIO_DONE && intaglio_opened_len(&opened) == count);
    WANT(opened.bytes == bytes && opened.len == len && (opened.sections.kind == 1) == intaglio_frozen_is_text(bytes, len));
    memset(headless, 7, 128);
    opened.bytes = headless;
    compare_strings(headless, len, &opened);
    WANT(intaglio_open(&opened, bytes, 127) == INTAGLIO_TRUNCATED && opened.bytes == headless && intaglio_opened_len(&opened) == count);
    free(headless);
}

/* Looks up and reads all by some sections, which may be wrong. What is read lies within the bytes. */
static void use_sections(const uint8_t *bytes, size_t len, const intaglio_sections *sections) {
    uint32_t symbol = 0;
    intaglio_spelling out;
    for (size_t i = 0; i <= count; i++)
        if (intaglio_frozen_get_in(bytes, len, sections, (uint32_t)i, &out)) WANT(out.len == 0 || (out.at >= bytes && out.at + out.len <= bytes + len));
    for (size_t i = 0; i < count; i++) (void)intaglio_frozen_find_in(bytes, len, sections, text + start_of(i), ends[i] - start_of(i), &symbol);
    (void)intaglio_frozen_get_in(bytes, len, sections, UINT32_MAX, &out);
}

/* No call reads outside the bytes, whatever the sections are: each word of them is another, and they are those of longer bytes. */
static void change_sections(const uint8_t *bytes, size_t len) {
    static const uint32_t others[] = {0, 1, 3, 64, 1 << 20, 0x7fffffff, 0x80000000, UINT32_MAX - 7, UINT32_MAX};
    intaglio_sections sections, changed;
    uint8_t *copy = own_copy(bytes, len);
    WANT(intaglio_frozen_sections(bytes, len, &sections) == INTAGLIO_DONE);
    for (size_t at = 0; at + 4 <= sizeof sections; at += 4)
        for (size_t i = 0; i < sizeof others / sizeof others[0]; i++) {
            changed = sections;
            memcpy((uint8_t *)&changed + at, &others[i], 4);
            use_sections(copy, len, &changed);
        }
    for (int byte = 0; byte < 256; byte++) {
        memset(&changed, byte, sizeof changed);
        use_sections(copy, len, &changed);
    }
    free(copy);
    for (size_t cut = 0; cut < len; cut++) {
        uint8_t *front = own_copy(bytes, cut);
        use_sections(front, cut, &sections);
        free(front);
    }
}

/* A table of the strings is frozen to these bytes, and stays as it is. */
static void freeze(const uint8_t *bytes, size_t len, uint32_t kind) {
    intaglio_table table = INTAGLIO_TABLE_NONE;
    uint32_t symbol;
    size_t size = 7;
    uint8_t *made = (uint8_t *)block(len + 1);
    WANT(intaglio_freeze(&table, 3, 4, made, len, &size) == INTAGLIO_NO_TABLE && size == 7);
    WANT(intaglio_new(&table, kind, 1, 2) == INTAGLIO_DONE);
    for (size_t i = 0; i < count; i++) WANT(intaglio_intern(&table, text + start_of(i), ends[i] - start_of(i), &symbol) == INTAGLIO_DONE && symbol == i);
    memset(made, 7, len + 1);
    WANT(intaglio_frozen_size(&table) == len);
    WANT(intaglio_freeze(&table, 3, 4, NULL, 0, &size) == INTAGLIO_NO_SPACE && size == len);
    WANT(intaglio_freeze(&table, 3, 4, made, len - 1, &size) == INTAGLIO_NO_SPACE && size == len && made[0] == 7);
    WANT(intaglio_freeze(&table, 3, 4, made, len + 1, &size) == INTAGLIO_DONE && size == len && memcmp(made, bytes, len) == 0 && made[len] == 7);
    WANT(intaglio_freeze(&table, 3, 5, made, len, &size) == INTAGLIO_DONE && size == len && memcmp(made, bytes, len) != 0);
    WANT(intaglio_frozen_check(made, len) == INTAGLIO_DONE && intaglio_len(&table) == count);
    intaglio_free(&table);
    free(made);
}

/* String i of a frozen table is at numbers[i]. */
static void is_map(intaglio_table *table, const uint8_t *bytes, size_t len, const uint32_t *numbers) {
    intaglio_spelling from, to;
    for (size_t i = 0; i < intaglio_frozen_len(bytes, len); i++)
        WANT(intaglio_frozen_get(bytes, len, (uint32_t)i, &from) && intaglio_get(table, numbers[i], &to) && is_same(&from, to.at, to.len));
}

/* A table takes in all strings, in their order behind those that it has, or none. */
static void absorb(const uint8_t *bytes, size_t len, uint32_t kind) {
    intaglio_table table = INTAGLIO_TABLE_NONE;
    uint32_t *numbers = (uint32_t *)block(sizeof *numbers * count);
    WANT(intaglio_absorb(&table, bytes, len, numbers, count) == INTAGLIO_NO_TABLE);
    WANT(intaglio_with_limit(&table, kind, count, 1, 2) == INTAGLIO_DONE);
    WANT(intaglio_intern(&table, text + start_of(1), ends[1] - start_of(1), numbers) == INTAGLIO_DONE && numbers[0] == 0);
    WANT(intaglio_absorb(&table, bytes, len, numbers, count - 1) == INTAGLIO_BAD_ENDS && intaglio_absorb(&table, bytes, len - 1, numbers, count) != INTAGLIO_DONE);
    WANT(intaglio_len(&table) == 1);
    for (int again = 0; again < 2; again++) {
        WANT(intaglio_absorb(&table, bytes, len, numbers, count) == INTAGLIO_DONE && intaglio_len(&table) == count);
        for (size_t i = 0; i < count; i++) WANT(numbers[i] == (i == 0 ? 1 : (i == 1 ? 0 : i)));
        is_map(&table, bytes, len, numbers);
    }
    WANT(intaglio_with_limit(&table, kind, count - 1, 1, 2) == INTAGLIO_DONE);
    WANT(intaglio_absorb(&table, bytes, len, numbers, count) == INTAGLIO_FULL && intaglio_len(&table) == 0);
    WANT(intaglio_new(&table, INTAGLIO_CSTR, 1, 2) == INTAGLIO_DONE);
    WANT(intaglio_absorb(&table, bytes, len, numbers, count) == INTAGLIO_MISSING_ZERO && intaglio_len(&table) == 0);
    intaglio_free(&table);
    free(numbers);
}

/* A pointer with a count of 0 may be null. */
static void pass_null(const uint8_t *bytes, size_t len) {
    uint32_t symbol = 7;
    intaglio_spelling out = {NULL, 7};
    WANT(intaglio_frozen_check(NULL, 0) == INTAGLIO_NOT_FROZEN && intaglio_frozen_len(NULL, 0) == 0 && !intaglio_frozen_is_text(NULL, 0));
    WANT(!intaglio_frozen_get(NULL, 0, 0, &out) && !intaglio_frozen_find(NULL, 0, NULL, 0, &symbol) && out.len == 7 && symbol == 7);
    WANT(intaglio_frozen_find_all(NULL, 0, NULL, 0, NULL, 0, NULL, 0) == INTAGLIO_NOT_FROZEN);
    intaglio_opened opened = {NULL, 7, {0, 0, 7, 0, 0, 0, 0, 0, 0, 0}};
    WANT(intaglio_open(&opened, NULL, 0) == INTAGLIO_NOT_FROZEN && opened.len == 7 && intaglio_opened_len(&opened) == 7);
    opened.len = 0;
    WANT(!intaglio_opened_get(&opened, 0, &out) && !intaglio_opened_find(&opened, NULL, 0, &symbol) && out.len == 7 && symbol == 7);
    WANT(intaglio_frozen_find_all(bytes, len, NULL, 0, NULL, 0, NULL, 0) == INTAGLIO_DONE);
    intaglio_table table = INTAGLIO_TABLE_NONE;
    WANT(intaglio_new(&table, INTAGLIO_BYTES, 1, 2) == INTAGLIO_DONE && intaglio_absorb(&table, NULL, 0, NULL, 0) == INTAGLIO_NOT_FROZEN);
    intaglio_free(&table);
    (void)intaglio_frozen_find(bytes, len, NULL, 0, &symbol);
}

/* Bytes that may be no table: all of their strings are taken in, or none. */
static void absorb_any(const uint8_t *bytes, size_t len) {
    intaglio_table table = INTAGLIO_TABLE_NONE;
    size_t held = intaglio_frozen_len(bytes, len);
    uint32_t *numbers = (uint32_t *)block(sizeof *numbers * (held + 1));
    WANT(intaglio_with_capacity(&table, INTAGLIO_PACKED_BYTES, 0, 1, 2) == INTAGLIO_DONE);
    if (intaglio_absorb(&table, bytes, len, numbers, held) == INTAGLIO_DONE) is_map(&table, bytes, len, numbers);
    else WANT(intaglio_len(&table) == 0);
    WANT(intaglio_frozen_check(bytes, len) != INTAGLIO_DONE || intaglio_len(&table) == held);
    intaglio_free(&table);
    free(numbers);
}

/* The same calls on the opened table give the same, if there is one. */
static void read_any_opened(const uint8_t *bytes, size_t len) {
    intaglio_opened opened;
    uint32_t symbol, other;
    intaglio_spelling out, copy;
    if (intaglio_open(&opened, bytes, len) != INTAGLIO_DONE) {
        WANT(intaglio_frozen_len(bytes, len) == 0);
        return;
    }
    WANT(intaglio_opened_len(&opened) == intaglio_frozen_len(bytes, len));
    for (size_t i = 0; i <= count; i++) {
        bool there = intaglio_opened_get(&opened, (uint32_t)i, &out);
        WANT(there == intaglio_frozen_get(bytes, len, (uint32_t)i, &copy) && (!there || (out.at == copy.at && out.len == copy.len)));
    }
    for (size_t i = 0; i < count; i++) {
        bool found = intaglio_opened_find(&opened, text + start_of(i), ends[i] - start_of(i), &symbol);
        WANT(found == intaglio_frozen_find(bytes, len, text + start_of(i), ends[i] - start_of(i), &other) && (!found || symbol == other));
    }
}

/* Reads bytes that may be no table, and writes the code of them, the code of looking up all strings, and their numbers. What is found is what was
 * sought. */
static void read_any(const uint8_t *bytes, size_t len) {
    uint32_t symbol;
    intaglio_spelling out;
    printf("%u", intaglio_frozen_check(bytes, len));
    size_t some = intaglio_frozen_len(bytes, len) < count ? intaglio_frozen_len(bytes, len) : count;
    for (size_t i = 0; i < some; i++) (void)intaglio_frozen_get(bytes, len, (uint32_t)i, &out);
    (void)intaglio_frozen_is_text(bytes, len);
    memset(symbols, 7, sizeof symbols[0] * count);
    printf(" %u", intaglio_frozen_find_all(bytes, len, text, ends[count - 1], ends, count, symbols, count));
    for (size_t i = 0; i < count; i++) printf(" %llu", (unsigned long long)symbols[i]);
    printf("\n");
    absorb_any(bytes, len);
    for (size_t i = 0; i < count; i++) {
        const uint8_t *string = text + start_of(i);
        size_t size = ends[i] - start_of(i);
        if (!intaglio_frozen_find(bytes, len, string, size, &symbol)) continue;
        WANT(intaglio_frozen_get(bytes, len, symbol, &out) && is_same(&out, string, size));
    }
    read_any_opened(bytes, len);
}

int main(int argc, char **argv) {
    WANT(argc == 3);
    read_lines();
    size_t len;
    const uint8_t *bytes = map(argv[1], &len);
    bool is_text = strcmp(argv[2], "text") == 0;
    compare(bytes, len);
    compare_opened(bytes, len);
    change_sections(bytes, len);
    WANT(intaglio_frozen_is_text(bytes, len) == is_text);
    pass_null(bytes, len);
    freeze(bytes, len, is_text ? INTAGLIO_TEXT : INTAGLIO_BYTES);
    absorb(bytes, len, is_text ? INTAGLIO_TEXT : INTAGLIO_PACKED_BYTES);
    damage(bytes, len, read_any);
    return 0;
}
