/* Reads a frozen table and a column file of it, whose codes come on standard input, each on a line, and whose codes have as many bytes as the
 * third argument says. The column must have these codes, and must be what the library makes of them. The table's strings in shards must be the
 * same dictionary. Then cuts the file at each length and changes each byte, and writes the code of each, its rows, the width, and the code of reading its dictionary: no call may read outside the
 * bytes. */
#include "tests.h"

enum {
    ROWS = 1 << 12,
    SHARDS = 3,
    UNWRITTEN = 7
};

static uint32_t wanted[ROWS], codes[ROWS + 2];
static uint64_t rows[ROWS + 2];
static size_t count;

/* The numbers of standard input. */
static void read_codes(void) {
    char line[32];
    for (; fgets(line, sizeof line, stdin); count++) {
        WANT(count < ROWS);
        wanted[count] = (uint32_t)strtoul(line, NULL, 10);
    }
}

/* Each code is read by its row, and many from any row on; behind them nothing is written. */
static void same_codes(const uint8_t *bytes, size_t len) {
    uint32_t code;
    for (size_t row = 0; row < count; row++) WANT(intaglio_column_code(bytes, len, row, &code) && code == wanted[row]);
    code = UNWRITTEN;
    WANT(!intaglio_column_code(bytes, len, count, &code) && !intaglio_column_code(bytes, len, SIZE_MAX, &code) && code == UNWRITTEN);
    for (size_t from = 0; from <= count + 1; from++)
        for (size_t places = 0; places < 4; places++) {
            size_t left = from < count ? count - from : 0, some = places < left ? places : left;
            for (size_t i = 0; i < 4; i++) codes[i] = UNWRITTEN;
            WANT(intaglio_column_codes(bytes, len, from, codes, places) == some && memcmp(codes, wanted + (count - left), sizeof *codes * some) == 0);
            for (size_t i = some; i < 4; i++) WANT(codes[i] == UNWRITTEN);
        }
    WANT(intaglio_column_codes(bytes, len, 0, codes, ROWS) == count && memcmp(codes, wanted, sizeof *codes * count) == 0);
    WANT(intaglio_column_codes(bytes, len, SIZE_MAX, codes, ROWS) == 0);
}

/* The rows of a code, with as many places as there may be and fewer. Returns how many there are. */
static size_t same_rows(const uint8_t *bytes, size_t len, uint32_t code) {
    size_t found = intaglio_column_rows(bytes, len, code, NULL, 0), next = 0;
    for (size_t places = 0; places <= found + 1; places++) {
        for (size_t i = 0; i <= places; i++) rows[i] = UNWRITTEN;
        WANT(intaglio_column_rows(bytes, len, code, rows, places) == found);
        next = 0;
        for (size_t row = 0; row < count; row++)
            if (wanted[row] == code && next++ < places) WANT(rows[next - 1] == row);
        WANT(next == found);
        for (size_t i = found; i <= places; i++) WANT(rows[i] == UNWRITTEN);
        WANT(found < places || rows[places] == UNWRITTEN);
    }
    return found;
}

/* The dictionary is that of the column, and the counts are those of the rows. */
static void same_dictionary(const uint8_t *bytes, size_t len, const uint8_t *table, size_t table_len) {
    intaglio_dictionary_id id, other;
    uint64_t missing = UNWRITTEN;
    memset(&id, UNWRITTEN, sizeof id);
    memset(&other, UNWRITTEN, sizeof other);
    WANT(intaglio_column_id(table, table_len, &id) == INTAGLIO_NOT_COLUMN && id.count == other.count && id.hash1 == other.hash1);
    WANT(intaglio_frozen_id(bytes, len, &other) == INTAGLIO_NOT_FROZEN && id.count == other.count && id.hash1 == other.hash1);
    WANT(intaglio_column_id(bytes, len, &id) == INTAGLIO_DONE && intaglio_frozen_id(table, table_len, &other) == INTAGLIO_DONE);
    WANT(intaglio_same_dictionary(&id, &other) && id.count == intaglio_frozen_len(table, table_len) && id.is_text == intaglio_frozen_is_text(table, table_len));
    other.hash1 ^= 1;
    WANT(!intaglio_same_dictionary(&id, &other));
    uint64_t *counts = (uint64_t *)block(sizeof *counts * (size_t)(id.count + 1));
    counts[0] = UNWRITTEN;
    WANT(intaglio_column_counts(bytes, len, counts, (size_t)id.count + 1, &missing) == INTAGLIO_BAD_ENDS && counts[0] == UNWRITTEN && missing == UNWRITTEN);
    WANT(intaglio_column_counts(bytes, len, counts, (size_t)id.count - 1, &missing) == INTAGLIO_BAD_ENDS && counts[0] == UNWRITTEN && missing == UNWRITTEN);
    WANT(intaglio_column_counts(bytes, len - 1, counts, (size_t)id.count, &missing) == INTAGLIO_TRUNCATED && counts[0] == UNWRITTEN && missing == UNWRITTEN);
    counts[id.count] = UNWRITTEN;
    WANT(intaglio_column_counts(bytes, len, counts, (size_t)id.count, &missing) == INTAGLIO_DONE && counts[id.count] == UNWRITTEN);
    uint64_t all = missing;
    for (uint32_t code = 0; code < id.count; code++) all += counts[code];
    WANT(all == count && missing == same_rows(bytes, len, INTAGLIO_MISSING));
    for (size_t row = 0; row < count; row++)
        if (wanted[row] != INTAGLIO_MISSING) WANT(counts[wanted[row]] == same_rows(bytes, len, wanted[row]));
    WANT(same_rows(bytes, len, (uint32_t)id.count) == 0);
    free(counts);
}

/* The strings of a frozen table that belong to a shard. */
static intaglio_table some_of(const uint8_t *table, size_t len, uint32_t shards, uint32_t shard) {
    intaglio_table part = INTAGLIO_TABLE_NONE;
    intaglio_spelling string;
    uint32_t symbol;
    WANT(intaglio_new(&part, INTAGLIO_TEXT, 1, 2) == INTAGLIO_DONE);
    for (uint32_t i = 0; intaglio_frozen_get(table, len, i, &string); i++)
        if (intaglio_shard_of(shards, string.at, string.len) == shard) WANT(intaglio_intern(&part, string.at, string.len, &symbol) == INTAGLIO_DONE);
    return part;
}

/* A shard of a dictionary is written, and its header says which. Returns it, and how many bytes it has. */
static uint8_t *write_shard(const intaglio_table *part, const intaglio_dictionary_id *id, size_t *len) {
    size_t size = intaglio_frozen_size(part);
    uint8_t *bytes = (uint8_t *)block(size);
    intaglio_dictionary_id found = *id;
    WANT(intaglio_freeze_shard(part, 5, 6, id, bytes, size, len) == INTAGLIO_DONE && *len == size);
    WANT(intaglio_frozen_check(bytes, size) == INTAGLIO_DONE && intaglio_frozen_id(bytes, size, &found) == INTAGLIO_DONE);
    WANT(found.is_text && found.count == intaglio_len(part) && found.hash0 == id->hash0 && found.hash1 == id->hash1);
    WANT(found.shards == id->shards && found.shard == id->shard);
    return bytes;
}

/* What can't be a shard isn't written. */
static void refuse_shards(const intaglio_table *part, intaglio_dictionary_id id) {
    size_t size = UNWRITTEN;
    uint8_t byte = UNWRITTEN;
    id.shard = id.shards;
    WANT(intaglio_freeze_shard(part, 5, 6, &id, &byte, 1, &size) == INTAGLIO_BAD_SHARD && size == UNWRITTEN && byte == UNWRITTEN);
    id.shard--;
    WANT(intaglio_freeze_shard(part, 5, 6, &id, &byte, 1, &size) == INTAGLIO_NO_SPACE && size == intaglio_frozen_size(part) && byte == UNWRITTEN);
    id.shards = 0;
    WANT(intaglio_column_write(&id, NULL, 0, &byte, 1, &size) == INTAGLIO_BAD_SHARD && byte == UNWRITTEN);
    intaglio_table none = INTAGLIO_TABLE_NONE;
    WANT(intaglio_own_id(&none, &id) == INTAGLIO_NO_TABLE && id.shards == 0);
    WANT(intaglio_freeze_shard(&none, 5, 6, &id, &byte, 1, &size) == INTAGLIO_NO_TABLE && byte == UNWRITTEN);
}

/* The strings of a frozen table are a dictionary in one shard and in several, and a column belongs to it. */
static void share_out(const uint8_t *table, size_t len) {
    intaglio_table parts[SHARDS];
    intaglio_dictionary_id ids[SHARDS], id, found;
    uint64_t hash0, hash1, other0, other1;
    uint8_t column[256];
    size_t size;
    for (uint32_t shard = 0; shard < SHARDS; shard++) {
        parts[shard] = some_of(table, len, SHARDS, shard);
        WANT(intaglio_own_id(parts + shard, ids + shard) == INTAGLIO_DONE && ids[shard].shards == 1 && ids[shard].shard == 0);
        uint8_t *bytes = write_shard(parts + shard, ids + shard, &size);
        WANT(intaglio_frozen_id(bytes, size, &found) == INTAGLIO_DONE && intaglio_same_dictionary(ids + shard, &found));
        free(bytes);
        WANT(intaglio_set_of_shards(ids + shard, 1, &hash0, &hash1) == INTAGLIO_DONE && hash0 == ids[shard].hash0 && hash1 == ids[shard].hash1);
    }
    WANT(intaglio_set_of_shards(ids, SHARDS, &hash0, &hash1) == INTAGLIO_DONE);
    WANT(intaglio_set_of_merge(SHARDS, ids, SHARDS, &other0, &other1) == INTAGLIO_DONE && (hash0 != other0 || hash1 != other1));
    id = ids[0];
    id.count = 0;
    id.hash0 = hash0;
    id.hash1 = hash1;
    id.shards = SHARDS;
    for (id.shard = 0; id.shard < SHARDS; id.shard++) {
        free(write_shard(parts + id.shard, &id, &size));
        id.count += intaglio_len(parts + id.shard);
    }
    id.shard = 0;
    WANT(id.count == intaglio_frozen_len(table, len) && intaglio_column_write(&id, NULL, 0, column, sizeof column, &size) == INTAGLIO_DONE);
    WANT(intaglio_column_check(column, size) == INTAGLIO_DONE && intaglio_column_id(column, size, &found) == INTAGLIO_DONE && intaglio_same_dictionary(&id, &found));
    WANT(intaglio_column_source(column, size, &found) == INTAGLIO_DONE && found.shards == 0 && found.shard == 0 && found.hash0 == 0 && found.count == 0);
    refuse_shards(parts, id);
    for (size_t i = 0; i < SHARDS; i++) intaglio_free(parts + i);
}

/* The codes are made the same bytes. */
static void write_codes(const uint8_t *bytes, size_t len) {
    intaglio_dictionary_id id;
    size_t size = UNWRITTEN;
    uint8_t *made = (uint8_t *)block(len + 1);
    WANT(intaglio_column_id(bytes, len, &id) == INTAGLIO_DONE && intaglio_column_size(&id, count) == len);
    memset(made, UNWRITTEN, len + 1);
    WANT(intaglio_column_write(&id, wanted, count, NULL, 0, &size) == INTAGLIO_NO_SPACE && size == len);
    WANT(intaglio_column_write(&id, wanted, count, made, len - 1, &size) == INTAGLIO_NO_SPACE && size == len && made[0] == UNWRITTEN);
    WANT(intaglio_column_write(&id, wanted, count, made, len + 1, &size) == INTAGLIO_DONE && size == len && memcmp(made, bytes, len) == 0 && made[len] == UNWRITTEN);
    memset(made, UNWRITTEN, len + 1);
    size = UNWRITTEN;
    uint32_t none = (uint32_t)id.count;
    WANT(intaglio_column_write(&id, &none, 1, made, len, &size) == INTAGLIO_NO_SYMBOL && size == UNWRITTEN && made[0] == UNWRITTEN);
    id.count = UINT64_C(1) << 32;
    WANT(intaglio_column_write(&id, wanted, count, made, len, &size) == INTAGLIO_TOO_MANY && size == UNWRITTEN && made[0] == UNWRITTEN);
    WANT(intaglio_column_check(NULL, 0) == INTAGLIO_NOT_COLUMN && intaglio_column_len(NULL, 0) == 0 && intaglio_column_width(NULL, 0) == 0);
    free(made);
}

/* Reads bytes that may be no column, and writes what the calls return of them. */
static void read_any(const uint8_t *bytes, size_t len) {
    intaglio_dictionary_id id;
    uint32_t code = UNWRITTEN;
    uint64_t missing = UNWRITTEN;
    size_t held = intaglio_column_len(bytes, len);
    memset(&id, 0, sizeof id);
    uint32_t known = intaglio_column_id(bytes, len, &id);
    printf("%u %zu %zu %u", intaglio_column_check(bytes, len), held, intaglio_column_width(bytes, len), known);
    size_t some = intaglio_column_codes(bytes, len, 0, codes, ROWS);
    WANT(some == held && (known == INTAGLIO_DONE || held == 0));
    for (size_t row = 0; row < some; row++) {
        WANT(intaglio_column_code(bytes, len, row, &code) && code == codes[row]);
        printf(" %u", code);
    }
    WANT(!intaglio_column_code(bytes, len, held, &code));
    (void)intaglio_column_rows(bytes, len, 0, rows, ROWS);
    if (id.count < ROWS) WANT(intaglio_column_counts(bytes, len, rows, (size_t)id.count, &missing) == known);
    printf("\n");
}

int main(int argc, char **argv) {
    size_t len, table_len;
    WANT(argc == 4);
    read_codes();
    const uint8_t *table = map(argv[1], &table_len), *bytes = map(argv[2], &len);
    WANT(intaglio_column_check(bytes, len) == INTAGLIO_DONE && intaglio_column_len(bytes, len) == count);
    WANT(intaglio_column_width(bytes, len) == (size_t)atoi(argv[3]));
    same_codes(bytes, len);
    same_dictionary(bytes, len, table, table_len);
    share_out(table, table_len);
    write_codes(bytes, len);
    damage(bytes, len, read_any);
    return 0;
}
