/* What the programs in C and C++ share: the lines of a file, each in a block of its own, and the time of calls on each of them. */
#ifndef LINES_H
#define LINES_H
#include <stdint.h>
#include <stdio.h>
#include <stdlib.h>
#include <string.h>
#include <time.h>

/* A string, with a zero behind it. */
typedef struct {
    uint8_t *at;
    size_t len;
} string;
typedef struct {
    string *items;
    size_t count;
} strings;

static strings read_lines(const char *path) {
    strings lines = {NULL, 0};
    char line[256];
    FILE *file = fopen(path, "r");
    if (!file) exit(2);
    while (fgets(line, sizeof line, file)) {
        size_t len = strcspn(line, "\n");
        if (lines.count % 1024 == 0) lines.items = (string *)realloc(lines.items, (lines.count + 1024) * sizeof *lines.items);
        uint8_t *at = (uint8_t *)malloc(len + 1);
        if (!lines.items || !at) exit(2);
        memcpy(at, line, len);
        at[len] = 0;
        string read = {at, len};
        lines.items[lines.count++] = read;
    }
    fclose(file);
    return lines;
}

static double now(void) {
    struct timespec time;
    clock_gettime(CLOCK_MONOTONIC, &time);
    return (double)time.tv_sec * 1e9 + (double)time.tv_nsec;
}

/* One function of a table on each string, or on each symbol below their number. The sum is of what it found. */
typedef uint64_t (*calls)(void *table, strings of);

static void measure(const char *row, const char *column, calls each, void *table, strings of) {
    double start = now();
    volatile uint64_t sum = each(table, of);
    (void)sum;
    printf("%s;%s;%.1f\n", row, column, (now() - start) / (double)of.count);
}
#endif
