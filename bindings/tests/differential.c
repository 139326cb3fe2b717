/* Random calls on tables of all kinds beside plain lists, with random allocation failures.
 *
 *     differential [SEED [CALLS]]
 *
 * Every code, result and buffer of a call is compared with that of a plain list, which this file implements by the header alone, and
 * all strings of a table after each call that failed. Also tried: null where the count is 0, buffers and arrays that are too short,
 * ends that decrease or are too large, numbers of no kind, handles without a table, strings that aren't valid for the kind. A
 * difference is printed with the seed and the number of the call, and ends the program with status 1.
 * Linked with -Wl,--wrap=malloc,--wrap=realloc,--wrap=free. */
#include "tests.h"

#define TABLES 12
#define KINDS ((uint32_t)INTAGLIO_PACKED_BYTES + 1)
#define MOST 300    /* strings in a table, after which it is cleared */
#define LONGEST 400 /* bytes of a string */
#define BATCH 12    /* strings in a batch */

static uint64_t seed, state;
static unsigned long long calls;

/* The next random number, by splitmix64. */
static uint64_t next(void) {
    uint64_t z = (state += UINT64_C(0x9e3779b97f4a7c15));
    z = (z ^ (z >> 30)) * UINT64_C(0xbf58476d1ce4e5b9);
    z = (z ^ (z >> 27)) * UINT64_C(0x94d049bb133111eb);
    return z ^ (z >> 31);
}
static size_t below(size_t n) { return (size_t)(next() % n); }
static bool one_of(size_t n) { return below(n) == 0; }

/* Allocations of the library fail at random in a call that is to fail, and are counted. */
static bool in_library, may_fail;
static long failed, live_blocks;

static bool fails(void) {
    if (!in_library || !may_fail || !one_of(2)) return false;
    failed++;
    return true;
}
void *__wrap_malloc(size_t size) {
    if (fails()) return NULL;
    void *made = __real_malloc(size);
    if (in_library && made != NULL) live_blocks++;
    return made;
}
void *__wrap_realloc(void *old, size_t size) { return fails() ? NULL : __real_realloc(old, size); }
void __wrap_free(void *old) {
    if (in_library && old != NULL) live_blocks--;
    __real_free(old);
}

/* A call of the library: allocations may fail in one of eight. */
#define IN_LIBRARY(CALL) \
    do { \
        failed = 0; \
        call = #CALL; \
        may_fail = one_of(8); \
        in_library = true; \
        CALL; \
        in_library = false; \
    } while (0)

/* Bytes in a block of exactly their length, so that a sanitizer sees each access beyond; of no bytes, null in one of two. */
struct bytes {
    uint8_t *at;
    size_t len;
};
static struct bytes copy_of(const uint8_t *at, size_t len) {
    struct bytes made = {len == 0 && one_of(2) ? NULL : own_copy(at, len), len};
    return made;
}

/* ---- the plain list ---- */
struct entry {
    struct bytes string, key;
    const uint8_t *seen;
};
struct table {
    intaglio_table handle;
    bool live;
    uint32_t kind;
    size_t limit, len, capacity;
    struct entry *entries;
};
static struct table tables[TABLES];

/* The length of the UTF-8 sequence at the start of bytes, or 0 if there is none (RFC 3629, the table of section 4). */
static size_t sequence(const uint8_t *at, size_t len) {
    uint8_t first = at[0], low = 0x80, high = 0xbf;
    size_t size = first < 0x80 ? 1 : (first < 0xc2 ? 0 : (first < 0xe0 ? 2 : (first < 0xf0 ? 3 : (first < 0xf5 ? 4 : 0))));
    if (first == 0xe0) low = 0xa0;
    if (first == 0xed) high = 0x9f;
    if (first == 0xf0) low = 0x90;
    if (first == 0xf4) high = 0x8f;
    if (size > len) return 0;
    for (size_t i = 1; i < size; i++, low = 0x80, high = 0xbf)
        if (at[i] < low || at[i] > high) return 0;
    return size;
}

/* The code for bytes that aren't a string of the kind, or 0. */
static uint32_t fault(uint32_t kind, const uint8_t *at, size_t len) {
    if (kind == INTAGLIO_CSTR) {
        const uint8_t *zero = len == 0 ? NULL : (const uint8_t *)memchr(at, 0, len);
        return zero == NULL ? INTAGLIO_MISSING_ZERO : (zero + 1 < at + len ? INTAGLIO_INNER_ZERO : INTAGLIO_DONE);
    }
    if (kind == INTAGLIO_BYTES || kind == INTAGLIO_BSTR || kind == INTAGLIO_PACKED_BYTES) return INTAGLIO_DONE;
    for (size_t i = 0, size; i < len; i += size)
        if ((size = sequence(at + i, len - i)) == 0) return INTAGLIO_NOT_UTF8;
    return INTAGLIO_DONE;
}

/* What strings are compared by: of a path a byte for the root, and each component with a slash behind it. */
static size_t key_of(uint32_t kind, const uint8_t *at, size_t len, uint8_t *key) {
    size_t size = 0;
    if (kind != INTAGLIO_PATH) {
        if (len != 0) memcpy(key, at, len);
        return len;
    }
    if (len != 0 && at[0] == '/') key[size++] = '/';
    for (size_t start = 0, end; start < len; start = end + 1) {
        for (end = start; end < len && at[end] != '/'; end++) {}
        bool is_dot = end - start == 1 && at[start] == '.';
        if (end == start || (is_dot && start != 0)) continue;
        memcpy(key + size, at + start, end - start);
        size += end - start;
        key[size++] = '/';
    }
    return size;
}

/* The position of a string in the list, or its length. */
static size_t position(const struct table *t, const uint8_t *at, size_t len) {
    uint8_t key[2 * LONGEST + 2];
    size_t size = key_of(t->kind, at, len, key), i = 0;
    while (i < t->len && (t->entries[i].key.len != size || memcmp(t->entries[i].key.at, key, size) != 0)) i++;
    return i;
}

static void add(struct table *t, const uint8_t *at, size_t len) {
    uint8_t key[2 * LONGEST + 2];
    size_t size = key_of(t->kind, at, len, key);
    struct entry *e = &t->entries[t->len++];
    e->string = (struct bytes){own_copy(at, len), len};
    e->key = (struct bytes){own_copy(key, size), size};
    e->seen = NULL;
    if (t->capacity < t->len) t->capacity = t->len;
}

static void cut(struct table *t, size_t len) {
    for (; t->len > len; t->len--) {
        free(t->entries[t->len - 1].string.at);
        free(t->entries[t->len - 1].key.at);
    }
}

/* ---- comparing ---- */
static void same_sizes(struct table *t, bool exact) {
    size_t len, capacity;
    IN_LIBRARY(len = intaglio_len(&t->handle));
    WANT(len == t->len);
    IN_LIBRARY(capacity = intaglio_capacity(&t->handle));
    WANT(exact ? capacity == t->capacity : capacity >= t->capacity);
    t->capacity = capacity;
}

/* The symbol's bytes are the list's, and are still where an earlier call said that they are. */
static void same_symbol(struct table *t, uint32_t symbol) {
    const uint8_t before = 0;
    intaglio_spelling out = {&before, 12345};
    bool found;
    if (symbol < t->len && t->entries[symbol].seen != NULL) {
        const struct entry *e = &t->entries[symbol];
        WANT(e->string.len == 0 || memcmp(e->seen, e->string.at, e->string.len) == 0);
    }
    IN_LIBRARY(found = intaglio_get(&t->handle, symbol, &out));
    WANT(failed == 0 && found == (symbol < t->len));
    if (!found) {
        WANT(out.at == &before && out.len == 12345);
        return;
    }
    struct entry *e = &t->entries[symbol];
    WANT(out.len == e->string.len && out.at != NULL && (out.len == 0 || memcmp(out.at, e->string.at, out.len) == 0));
    WANT(e->seen == NULL || e->seen == out.at);
    e->seen = out.at;
}

/* After a call that interns, reserves or shrinks, the bytes of a packed table may be elsewhere. */
static void may_move(struct table *t) {
    if (t->kind != INTAGLIO_PACKED_TEXT && t->kind != INTAGLIO_PACKED_BYTES) return;
    for (size_t i = 0; i < t->len; i++) t->entries[i].seen = NULL;
}

static void same_table(struct table *t) {
    same_sizes(t, false);
    for (size_t i = 0; i < t->len; i++) same_symbol(t, (uint32_t)i);
}

/* A code is as expected; if an allocation failed, it is NO_MEMORY, which nothing else may be. */
static void same_code(struct table *t, uint32_t code, uint32_t wanted) {
    if (failed != 0) wanted = INTAGLIO_NO_MEMORY;
    if (code != wanted) fprintf(stderr, "code %u (%s) in place of %u\n", code, intaglio_message(code), wanted);
    WANT(code == wanted);
    if (code != INTAGLIO_DONE) same_table(t);
}

/* ---- random strings ---- */
static size_t random_string(uint32_t kind, uint8_t *at) {
    static const char *const parts[] = {"a", "b", "/", ".", "..", "\xc3\xa9", "\xe2\x82\xac", "\xf0\x9f\x8d\x8e", "//", "/./", "ab"};
    static const char *const bad[] = {"\xff", "\xc3", "\xed\xa0\x80", "\xc0\x80", "\xf4\x90\x80\x80", "\xe2\x82"};
    size_t len = 0, count = one_of(50) ? below(100) : below(5);
    for (size_t i = 0; i < count; i++) {
        const char *part = one_of(60) ? bad[below(sizeof bad / sizeof *bad)] : parts[below(sizeof parts / sizeof *parts)];
        if (len + strlen(part) + 2 > LONGEST) break;
        memcpy(at + len, part, strlen(part));
        len += strlen(part);
    }
    if (one_of(80)) at[len++] = 0;
    if (kind == INTAGLIO_CSTR && !one_of(20)) at[len++] = 0;
    return len;
}

/* ---- calls ---- */
static void make(struct table *t) {
    uint32_t kind = one_of(15) ? KINDS + (uint32_t)below(1000) : (uint32_t)below(KINDS), code;
    size_t size = one_of(20) ? ((size_t)1 << 32) + 1 + below(1000) : below(40);
    size_t which = below(5);
    bool is_limit = which < 2;
    if (which == 4 && one_of(20)) {
        size = 4096;
        IN_LIBRARY(code = intaglio_new(&t->handle, kind, next(), next()));
    } else if (is_limit) {
        IN_LIBRARY(code = intaglio_with_limit(&t->handle, kind, size, next(), next()));
    } else {
        IN_LIBRARY(code = intaglio_with_capacity(&t->handle, kind, size, next(), next()));
    }
    bool is_large = size > (size_t)1 << 32 || (is_limit && size == 0);
    cut(t, 0);
    t->live = kind < KINDS && !is_large && failed == 0;
    t->kind = t->live ? kind : 0;
    t->limit = is_limit ? size : (size_t)1 << 32;
    t->capacity = is_limit || !t->live ? 0 : size;
    if (kind >= KINDS || is_large) WANT(failed == 0);
    same_code(t, code, kind >= KINDS ? INTAGLIO_NO_KIND : (is_large ? INTAGLIO_TOO_LARGE : INTAGLIO_DONE));
    same_sizes(t, true);
}

/* The code that interning a string returns if no allocation fails. */
static uint32_t code_of(const struct table *t, const uint8_t *at, size_t len) {
    if (!t->live) return INTAGLIO_NO_TABLE;
    uint32_t why = fault(t->kind, at, len);
    if (why != INTAGLIO_DONE) return why;
    return position(t, at, len) == t->len && t->len == t->limit ? INTAGLIO_FULL : INTAGLIO_DONE;
}

/* Strings that were interned without a copy: they stay until the end. There is space for one for each call. */
static struct bytes *statics;
static size_t statics_len;

static void intern(struct table *t, bool is_static) {
    uint8_t made[LONGEST + 2];
    struct bytes string = copy_of(made, random_string(t->kind, made));
    uint32_t symbol = 77, code, wanted = code_of(t, string.at, string.len);
    size_t at = t->live ? position(t, string.at, string.len) : 0;
    if (is_static) IN_LIBRARY(code = intaglio_intern_static(&t->handle, string.at, string.len, &symbol));
    else IN_LIBRARY(code = intaglio_intern(&t->handle, string.at, string.len, &symbol));
    may_move(t);
    if (wanted != INTAGLIO_DONE || at < t->len) WANT(failed == 0);
    same_code(t, code, wanted);
    WANT(symbol == (code == INTAGLIO_DONE ? at : 77));
    if (code == INTAGLIO_DONE && at == t->len) add(t, string.at, string.len);
    if (is_static) statics[statics_len++] = string;
    else free(string.at);
    same_sizes(t, false);
}

static void check_interned(struct table *t) {
    uint8_t made[LONGEST + 2];
    struct bytes string = copy_of(made, random_string(t->kind, made));
    uint32_t symbol = 77;
    bool found, is_there = t->live && fault(t->kind, string.at, string.len) == INTAGLIO_DONE && position(t, string.at, string.len) < t->len;
    IN_LIBRARY(found = intaglio_check_interned(&t->handle, string.at, string.len, &symbol));
    WANT(failed == 0 && found == is_there && symbol == (is_there ? position(t, string.at, string.len) : 77));
    free(string.at);
}

static uint32_t random_symbol(const struct table *t) { return one_of(20) ? (uint32_t)next() : (uint32_t)below(t->len + 2); }

static void copy(struct table *t) {
    uint32_t symbol = random_symbol(t);
    size_t real = symbol < t->len ? t->entries[symbol].string.len : 3, size = below(real + 4), len = 12345;
    uint8_t before[LONGEST + 8];
    memset(before, 0xa5, sizeof before);
    struct bytes buffer = copy_of(before, size);
    bool found;
    IN_LIBRARY(found = intaglio_copy(&t->handle, symbol, buffer.at, size, &len));
    WANT(failed == 0 && found == (symbol < t->len) && len == (found ? real : 12345));
    if (found && real <= size && real != 0) memcpy(before, t->entries[symbol].string.at, real);
    WANT(size == 0 || memcmp(before, buffer.at, size) == 0);
    free(buffer.at);
}

static void resize(struct table *t) {
    size_t size = one_of(20) ? (size_t)next() >> below(40) : below(2 * t->len + 20);
    uint32_t code;
    if (one_of(2)) {
        bool is_large = t->live && size > t->limit - t->len;
        if (!is_large && size > 100000) return;
        bool is_enough = t->len + size <= t->capacity;
        IN_LIBRARY(code = intaglio_reserve(&t->handle, size));
        if (!is_enough && t->live && !is_large) may_move(t);
        if (!t->live || is_large || is_enough) WANT(failed == 0);
        same_code(t, code, !t->live ? INTAGLIO_NO_TABLE : (is_large ? INTAGLIO_TOO_LARGE : INTAGLIO_DONE));
        if (code == INTAGLIO_DONE && !is_enough) t->capacity = t->len + size;
        same_sizes(t, is_enough);
        return;
    }
    bool is_small = t->live && size < t->capacity;
    IN_LIBRARY(code = intaglio_shrink_to(&t->handle, size));
    may_move(t);
    if (!is_small) WANT(failed == 0);
    /* If an allocation of a shrink after its first fails, nothing may report it: a list then keeps its memory. */
    WANT(code == (t->live ? INTAGLIO_DONE : INTAGLIO_NO_TABLE) || (code == INTAGLIO_NO_MEMORY && failed == 1));
    if (code == INTAGLIO_DONE && is_small) t->capacity = size < t->len ? t->len : size;
    same_sizes(t, true);
}

static void take_back(struct table *t) {
    size_t mark = one_of(10) ? t->len + 1 + below(100) : t->len - below(t->len < 4 ? t->len + 1 : 4);
    uint32_t code;
    IN_LIBRARY(code = intaglio_take_back(&t->handle, mark));
    WANT(failed == 0);
    same_code(t, code, !t->live ? INTAGLIO_NO_TABLE : (mark > t->len ? INTAGLIO_STALE : INTAGLIO_DONE));
    if (code == INTAGLIO_DONE) cut(t, mark);
    same_sizes(t, true);
}

/* A random batch, of which one in thirty has ends that are wrong. */
struct batch {
    struct bytes bytes;
    size_t *ends;
    size_t count;
    bool is_good;
};
static struct batch random_batch(uint32_t kind) {
    static uint8_t all[BATCH * (LONGEST + 2)];
    size_t ends[BATCH], len = 0;
    struct batch b = {{NULL, 0}, NULL, below(BATCH), true};
    for (size_t i = 0; i < b.count; i++) ends[i] = len += random_string(kind, all + len);
    if (b.count != 0 && one_of(30)) {
        size_t i = below(b.count);
        ends[i] = one_of(2) ? len + 1 + below(3) : below(len + 1);
    }
    for (size_t i = 0; i < b.count; i++) b.is_good = b.is_good && ends[i] >= (i == 0 ? 0 : ends[i - 1]) && ends[i] <= len;
    b.bytes = copy_of(all, len);
    if (b.count != 0 || one_of(2)) b.ends = (size_t *)block(b.count * sizeof *ends);
    if (b.count != 0) memcpy(b.ends, ends, b.count * sizeof *ends);
    return b;
}
static const uint8_t *piece(const struct batch *b, size_t i, size_t *len) {
    size_t start = i == 0 ? 0 : b->ends[i - 1];
    *len = b->ends[i] - start;
    return b->bytes.at == NULL ? NULL : b->bytes.at + start;
}
static void drop(struct batch *b) {
    free(b->bytes.at);
    free(b->ends);
}
static size_t places(size_t count) { return one_of(25) ? below(count + 3) : count; }

static void intern_all(struct table *t) {
    struct batch b = random_batch(t->kind);
    size_t count = places(b.count), mark = t->len, old = t->capacity, new_ones = 0;
    uint32_t *symbols = count == 0 && one_of(2) ? NULL : (uint32_t *)block(count * sizeof *symbols), wanted = INTAGLIO_DONE, code;
    uint32_t right[BATCH + 2] = {0};
    if (!t->live) wanted = INTAGLIO_NO_TABLE;
    else if (!b.is_good || count != b.count) wanted = INTAGLIO_BAD_ENDS;
    for (size_t i = 0, len; wanted == INTAGLIO_DONE && i < count; i++) {
        const uint8_t *at = piece(&b, i, &len);
        if ((wanted = code_of(t, at, len)) != INTAGLIO_DONE) break;
        right[i] = (uint32_t)position(t, at, len);
        if (right[i] == t->len) new_ones++, add(t, at, len);
    }
    IN_LIBRARY(code = intaglio_intern_all(&t->handle, b.bytes.at, b.bytes.len, b.ends, b.count, symbols, count));
    may_move(t);
    if (new_ones == 0) WANT(failed == 0);
    if (code != INTAGLIO_DONE) cut(t, mark), t->capacity = old;
    same_code(t, code, wanted);
    if (code == INTAGLIO_DONE) WANT(count == 0 || memcmp(symbols, right, count * sizeof *symbols) == 0);
    same_sizes(t, false);
    free(symbols);
    drop(&b);
}

static void check_all(struct table *t) {
    struct batch b = random_batch(t->kind);
    size_t count = places(b.count);
    uint64_t *symbols = count == 0 && one_of(2) ? NULL : (uint64_t *)block(count * sizeof *symbols);
    if (count != 0) memset(symbols, 0xa5, count * sizeof *symbols);
    uint32_t wanted = !t->live ? INTAGLIO_NO_TABLE : (!b.is_good || count != b.count ? INTAGLIO_BAD_ENDS : INTAGLIO_DONE), code;
    IN_LIBRARY(code = intaglio_check_all(&t->handle, b.bytes.at, b.bytes.len, b.ends, b.count, symbols, count));
    WANT(failed == 0);
    same_code(t, code, wanted);
    for (size_t i = 0, len; i < count; i++) {
        uint64_t right = UINT64_C(0xa5a5a5a5a5a5a5a5);
        if (code == INTAGLIO_DONE) {
            const uint8_t *at = piece(&b, i, &len);
            size_t found = fault(t->kind, at, len) == INTAGLIO_DONE ? position(t, at, len) : t->len;
            right = found < t->len ? found : INTAGLIO_ABSENT;
        }
        WANT(symbols[i] == right);
    }
    free(symbols);
    drop(&b);
}

static void copy_all(struct table *t) {
    size_t count = below(BATCH), ends_count = places(count), total = 0;
    uint32_t *symbols = (uint32_t *)block(count * sizeof *symbols), wanted = INTAGLIO_DONE, code;
    for (size_t i = 0; i < count; i++) {
        symbols[i] = t->len != 0 && !one_of(60) ? (uint32_t)below(t->len) : random_symbol(t);
        if (symbols[i] < t->len) total += t->entries[symbols[i]].string.len;
    }
    size_t size = one_of(8) ? below(total + 1) : total + below(3), at = 0, written = 0;
    struct bytes buffer = {(uint8_t *)block(size), size};
    size_t *ends = (size_t *)block(ends_count * sizeof *ends);
    for (size_t i = 0; i < size; i++) buffer.at[i] = 0xa5;
    for (size_t i = 0; i < ends_count; i++) ends[i] = SIZE_MAX;
    if (!t->live) wanted = INTAGLIO_NO_TABLE;
    else if (ends_count != count) wanted = INTAGLIO_BAD_ENDS;
    while (wanted == INTAGLIO_DONE && written < count) {
        if (symbols[written] >= t->len) wanted = INTAGLIO_NO_SYMBOL;
        else if (t->entries[symbols[written]].string.len > size - at) wanted = INTAGLIO_NO_SPACE;
        else at += t->entries[symbols[written++]].string.len;
    }
    IN_LIBRARY(code = intaglio_copy_all(&t->handle, count == 0 ? NULL : symbols, count, size == 0 ? NULL : buffer.at, size, ends_count == 0 ? NULL : ends, ends_count));
    WANT(failed == 0);
    same_code(t, code, wanted);
    at = 0;
    for (size_t i = 0; i < written; i++) {
        const struct bytes *string = &t->entries[symbols[i]].string;
        WANT(ends[i] == at + string->len && (string->len == 0 || memcmp(buffer.at + at, string->at, string->len) == 0));
        at = ends[i];
    }
    for (size_t i = written; i < ends_count; i++) WANT(ends[i] == SIZE_MAX);
    for (size_t i = at; i < size; i++) WANT(buffer.at[i] == 0xa5);
    free(ends);
    free(buffer.at);
    free(symbols);
}

static void forget(struct table *t) {
    bool frees = one_of(2);
    if (frees) IN_LIBRARY(intaglio_free(&t->handle));
    else IN_LIBRARY(intaglio_clear(&t->handle));
    WANT(failed == 0);
    cut(t, 0);
    if (frees) t->live = false, t->kind = 0, t->capacity = 0;
    same_sizes(t, true);
}

/* The handle goes to another place, and the old one is overwritten. */
static void move(struct table *t) {
    intaglio_table *moved = (intaglio_table *)block(sizeof *moved);
    *moved = t->handle;
    memset(&t->handle, 0, sizeof t->handle);
    t->handle = *moved;
    free(moved);
    same_table(t);
}

static void intern_copied(struct table *t) { intern(t, false); }
static void intern_static(struct table *t) { intern(t, true); }
static void get(struct table *t) { same_symbol(t, random_symbol(t)); }

/* The calls, of which some are drawn more often. */
static void (*const CALLS[])(struct table *) = {
    intern_copied, intern_copied, intern_copied, intern_static, check_interned, check_interned, get, get,
    copy, resize, take_back, intern_all, intern_all, check_all, copy_all, move};

static void one_call(struct table *t) {
    snprintf(which, sizeof which, "seed %llu, call %llu, ", (unsigned long long)seed, calls);
    if (t->len > MOST - BATCH || one_of(400)) forget(t);
    else if (one_of(300) || (!t->live && one_of(4))) make(t);
    else CALLS[below(sizeof CALLS / sizeof *CALLS)](t);
}

int main(int argc, char **argv) {
    seed = argc > 1 ? strtoull(argv[1], NULL, 10) : 1;
    unsigned long long most = argc > 2 ? strtoull(argv[2], NULL, 10) : 1000000;
    state = seed;
    statics = (struct bytes *)block((size_t)most * sizeof *statics);
    WANT(intaglio_version() == INTAGLIO_VERSION);
    for (uint32_t code = 0; code <= INTAGLIO_DAMAGED + 1; code++)
        for (uint32_t other = 0; other < code; other++) WANT(strcmp(intaglio_message(code), intaglio_message(other)) != 0);
    for (size_t i = 0; i < TABLES; i++) {
        const intaglio_table none = INTAGLIO_TABLE_NONE;
        tables[i].handle = none;
        tables[i].entries = (struct entry *)block(MOST * sizeof(struct entry));
    }
    for (calls = 0; calls < most; calls++) one_call(&tables[below(TABLES)]);
    for (size_t i = 0; i < TABLES; i++) {
        same_table(&tables[i]);
        IN_LIBRARY(intaglio_free(&tables[i].handle));
        cut(&tables[i], 0);
        free(tables[i].entries);
    }
    WANT(live_blocks == 0);
    for (size_t i = 0; i < statics_len; i++) free(statics[i].at);
    free(statics);
    printf("%llu random calls from seed %llu, no difference\n", most, (unsigned long long)seed);
    return 0;
}
