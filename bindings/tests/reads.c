/* Makes every call that only reads while the memory of the table and of its handle can't be written: a write would end the
 * program, and so would a request for memory or a free. So several threads may read a table at once. Opens frozen tables while
 * only their header can be read. Linked with -Wl,--wrap=malloc,--wrap=realloc,--wrap=free. */
#include "tests.h"

enum {
    SIZE = 1 << 22,
    STRINGS = 500
};

/* While the table is made, memory comes from one block, without reuse. While it is read there is none. */
static uint8_t *space;
static size_t used;
static bool is_making, is_reading;

static bool is_ours(const void *at) { return space && (const uint8_t *)at >= space && (const uint8_t *)at < space + SIZE; }

static void no_memory_while_reading(void) {
    if (is_reading) abort();
}

void *__wrap_malloc(size_t size) {
    no_memory_while_reading();
    if (!is_making) return __real_malloc(size);
    size_t start = (used + 15) & ~(size_t)15;
    if (size > SIZE - start) return NULL;
    used = start + size;
    return space + start;
}

void *__wrap_realloc(void *old, size_t size) {
    no_memory_while_reading();
    if (!old) return __wrap_malloc(size);
    if (!is_ours(old)) return __real_realloc(old, size);
    void *made = __wrap_malloc(size);
    /* (what lies behind the old bytes is copied too, and stays in the block) */
    size_t left = (size_t)(space + SIZE - (uint8_t *)old);
    if (made) memmove(made, old, size < left ? size : left);
    return made;
}

void __wrap_free(void *old) {
    no_memory_while_reading();
    if (!is_ours(old)) __real_free(old);
}

/* String i of a kind, with the zero that a C string ends with. */
static size_t spell(uint32_t kind, uint32_t i, uint8_t *into) {
    int len = sprintf((char *)into, "%s%u/%.*s", i % 2 ? "a" : "b", i, (int)(i % 60), "xxxxxxxxxxxxxxxxxxxxxxxxxxxxxxxxxxxxxxxxxxxxxxxxxxxxxxxxxxxx");
    return (size_t)len + (kind == INTAGLIO_CSTR);
}

/* A call that only reads, on `table`, and what it must return. */
#define READS(CONDITION) \
    do { \
        is_reading = true; \
        bool holds = (CONDITION); \
        is_reading = false; \
        if (!holds) stop(__LINE__, #CONDITION); \
    } while (0)

/* Trusted bytes are opened by their header alone: here no byte behind it can be read. */
static void open_by_header(const uint8_t *frozen, size_t len, bool is_text) {
    enum { HEADER = 128 };
    size_t page = (size_t)sysconf(_SC_PAGESIZE), size = page + (len / page + 1) * page;
    uint8_t *pages = (uint8_t *)mmap(NULL, size, PROT_READ | PROT_WRITE, MAP_PRIVATE | MAP_ANONYMOUS, -1, 0);
    if (pages == MAP_FAILED) exit(2);
    uint8_t *bytes = pages + page - HEADER;
    memcpy(bytes, frozen, len);
    WANT(mprotect(pages + page, size - page, PROT_NONE) == 0);
    READS(intaglio_frozen_len(bytes, len) == STRINGS && intaglio_frozen_is_text(bytes, len) == is_text);
    intaglio_opened opened;
    READS(intaglio_open(&opened, bytes, len) == INTAGLIO_DONE && intaglio_opened_len(&opened) == STRINGS);
    WANT(munmap(pages, size) == 0);
}

/* Freezing requests memory of its own, and writes to none of the table's. The bytes are read without a request. */
static void freeze(const intaglio_table *table, uint32_t kind) {
    static uint8_t frozen[1 << 16];
    uint8_t bytes[128];
    size_t len;
    uint32_t symbol;
    intaglio_spelling out;
    WANT(intaglio_freeze(table, 1, 2, frozen, sizeof frozen, &len) == INTAGLIO_DONE);
    READS(intaglio_frozen_check(frozen, len) == INTAGLIO_DONE && intaglio_frozen_len(frozen, len) == STRINGS);
    bool is_text = kind == INTAGLIO_TEXT || kind == INTAGLIO_PATH || kind == INTAGLIO_OSSTR || kind == INTAGLIO_PACKED_TEXT;
    READS(intaglio_frozen_is_text(frozen, len) == is_text);
    open_by_header(frozen, len, is_text);
    intaglio_opened opened;
    READS(intaglio_open(&opened, frozen, len) == INTAGLIO_DONE);
    for (uint32_t i = 0; i < STRINGS; i++) {
        size_t size = spell(kind, i, bytes);
        READS(intaglio_frozen_find(frozen, len, bytes, size, &symbol) && symbol == i);
        READS(intaglio_frozen_get(frozen, len, i, &out) && is_same(&out, bytes, size));
        READS(intaglio_opened_find(&opened, bytes, size, &symbol) && symbol == i);
        READS(intaglio_opened_get(&opened, i, &out) && is_same(&out, bytes, size));
    }
}

static void read_all(const intaglio_table *table, uint32_t kind) {
    uint8_t bytes[128], copy[128], all[256];
    size_t ends[2], copied[2], len;
    uint64_t found[2];
    uint32_t symbol;
    intaglio_spelling out;
    READS(intaglio_len(table) == STRINGS && intaglio_capacity(table) >= STRINGS);
    for (uint32_t i = 0; i < STRINGS + 100; i++) {
        size_t size = spell(kind, i, bytes);
        bool there = i < STRINGS;
        READS(intaglio_check_interned(table, bytes, size, &symbol) == there && (!there || symbol == i));
        READS(intaglio_get(table, i, &out) == there && (!there || (is_same(&out, bytes, size))));
        READS(intaglio_copy(table, i, copy, sizeof copy, &len) == there && (!there || (len == size && memcmp(copy, bytes, size) == 0)));
        memcpy(all, bytes, size);
        memcpy(all + size, bytes, size);
        ends[0] = size;
        ends[1] = 2 * size;
        READS(intaglio_check_all(table, all, 2 * size, ends, 2, found, 2) == INTAGLIO_DONE);
        WANT(found[0] == (there ? i : INTAGLIO_ABSENT) && found[1] == found[0]);
        uint32_t symbols[2] = {i, i};
        READS(intaglio_copy_all(table, symbols, 2, all, sizeof all, copied, 2) == (there ? INTAGLIO_DONE : INTAGLIO_NO_SYMBOL));
    }
    READS(!intaglio_check_interned(table, (const uint8_t *)"\xff", 1, &symbol));
}

static void run(uint32_t kind) {
    uint8_t bytes[128];
    uint32_t symbol;
    sprintf(which, "kind %u: ", kind);
    /* The handle is at the start of the block. */
    intaglio_table *table = (intaglio_table *)(void *)space;
    WANT(mprotect(space, SIZE, PROT_READ | PROT_WRITE) == 0);
    memset(table, 0, sizeof *table);
    used = sizeof *table;
    is_making = true;
    WANT(intaglio_with_capacity(table, kind, 7, 1, 2) == INTAGLIO_DONE);
    for (uint32_t i = 0; i < STRINGS; i++) WANT(intaglio_intern(table, bytes, spell(kind, i, bytes), &symbol) == INTAGLIO_DONE && symbol == i);
    is_making = false;
    WANT(is_ours(table->ptr) && mprotect(space, SIZE, PROT_READ) == 0);
    read_all(table, kind);
    freeze(table, kind);
    WANT(mprotect(space, SIZE, PROT_READ | PROT_WRITE) == 0);
    intaglio_free(table);
}

int main(void) {
    space = (uint8_t *)mmap(NULL, SIZE, PROT_READ | PROT_WRITE, MAP_PRIVATE | MAP_ANONYMOUS, -1, 0);
    WANT(space != MAP_FAILED);
    for (uint32_t kind = INTAGLIO_TEXT; kind <= INTAGLIO_PACKED_BYTES; kind++) run(kind);
    printf("8 kinds are read without a write\n");
    return 0;
}
