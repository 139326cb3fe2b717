/* What the programs of this folder share. */
#ifndef TESTS_H
#define TESTS_H
#ifndef _GNU_SOURCE
#define _GNU_SOURCE
#endif
#include "intaglio.h"
#include <fcntl.h>
#include <stdio.h>
#include <stdlib.h>
#include <string.h>
#include <sys/mman.h>
#include <sys/stat.h>
#include <unistd.h>

/* What is written before what isn't as it must be: which case it is, and the last call. */
static char which[64];
static const char *call = "";

static inline void stop(int line, const char *what) {
    fprintf(stderr, "%s%s: line %d: %s\n", which, call, line, what);
    exit(1);
}

#define WANT(CONDITION) \
    do { \
        if (!(CONDITION)) stop(__LINE__, #CONDITION); \
    } while (0)

/* The allocator of a program that is linked with -Wl,--wrap=malloc,--wrap=realloc,--wrap=free. */
void *__real_malloc(size_t size);
void *__real_realloc(void *old, size_t size);
void __real_free(void *old);
void *__wrap_malloc(size_t size);
void *__wrap_realloc(void *old, size_t size);
void __wrap_free(void *old);

static inline void *block(size_t size) {
    void *made = malloc(size == 0 ? 1 : size);
    if (made == NULL) exit(2);
    return made;
}

/* A copy in a block of its own, so that a read behind it is seen. */
static inline uint8_t *own_copy(const uint8_t *bytes, size_t len) {
    uint8_t *made = (uint8_t *)block(len);
    if (len != 0) memcpy(made, bytes, len);
    return made;
}

static inline bool is_same(const intaglio_spelling *found, const uint8_t *bytes, size_t len) {
    return found->len == len && memcmp(found->at, bytes, len) == 0;
}

/* The bytes of a file. */
static inline const uint8_t *map(const char *name, size_t *len) {
    struct stat status;
    int file = open(name, O_RDONLY);
    WANT(file >= 0 && fstat(file, &status) == 0);
    *len = (size_t)status.st_size;
    void *bytes = mmap(NULL, *len, PROT_READ, MAP_PRIVATE, file, 0);
    WANT(bytes != MAP_FAILED && close(file) == 0);
    return (const uint8_t *)bytes;
}

/* Calls a function with the bytes cut at each length, and with each byte one greater. */
static inline void damage(const uint8_t *bytes, size_t len, void (*call)(const uint8_t *bytes, size_t len)) {
    for (size_t i = 0; i < 2 * len; i++) {
        size_t size = i < len ? i : len;
        uint8_t *changed = own_copy(bytes, size);
        if (i >= len) changed[i - len]++;
        call(changed, size);
        free(changed);
    }
}

#endif
