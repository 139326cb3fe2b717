/* Writes for each line of standard input, which has no zero byte, which shard it belongs to, of each of the numbers of shards that the arguments
 * are. Without shards it is 0, and a pointer to no bytes may be null. */
#include "intaglio.h"
#include <stdio.h>
#include <stdlib.h>
#include <string.h>

enum { MOST = 1 << 16 };

static char line[MOST];

int main(int count, char **words) {
    if (intaglio_shard_of(0, (const uint8_t *)"a", 1) != 0 || intaglio_shard_of(0, NULL, 0) != 0 || intaglio_shard_of(1, (const uint8_t *)"a", 1) != 0) return 1;
    if (intaglio_shard_of(UINT32_MAX, NULL, 0) != intaglio_shard_of(UINT32_MAX, (const uint8_t *)"a", 0)) return 1;
    while (fgets(line, sizeof line, stdin)) {
        /* (a line of its own, so that a read behind it is seen) */
        size_t len = strcspn(line, "\n");
        uint8_t *own = (uint8_t *)malloc(len + !len);
        if (!own) return 1;
        memcpy(own, line, len);
        for (int i = 1; i < count; i++) printf("%u%c", intaglio_shard_of((uint32_t)strtoul(words[i], NULL, 10), own, len), i + 1 < count ? ' ' : '\n');
        free(own);
    }
    return 0;
}
