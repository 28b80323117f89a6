/* The words of the lines that vectors.c and json_vectors.c read. They stand between spaces, and a word of no parts is
 * "-". Bytes are hexadecimal; core values are "i32:7,i64:8". */
#ifndef WORDS_H
#define WORDS_H

#include "witcall.h"
#include <inttypes.h>
#include <stdbool.h>
#include <stdio.h>
#include <stdlib.h>
#include <string.h>

/* More than any call of the vectors has. */
#define MOST_VALUES 32
/* The stored calls are made without a limit. */
#define NO_LIMIT UINT64_MAX

typedef struct {
    witcall_value at[MOST_VALUES];
    size_t len;
} values;

static void fail(const char *why) {
    fprintf(stderr, "vectors: %s\n", why);
    exit(2);
}

/* A block of its own of just so many parts, so that a tool finds each access beyond it. They are zero. */
static void *room_for(size_t count, size_t size) {
    void *parts = calloc(count, size);
    if (!parts && count)
        fail("no memory");
    return parts;
}

static bool is_none(const char *word) {
    return strcmp(word, "-") == 0;
}

/* The bytes of a word, in a block of at least so many. */
static uint8_t *bytes_within(const char *word, size_t room, size_t *len) {
    *len = is_none(word) ? 0 : strlen(word) / 2;
    uint8_t *bytes = room_for(*len < room ? room : *len, 1);
    for (size_t i = 0; i < *len; i++)
        if (sscanf(word + 2 * i, "%2" SCNx8, &bytes[i]) != 1)
            fail("bad bytes");
    return bytes;
}

static uint8_t *bytes_of(const char *word, size_t *len) {
    return bytes_within(word, 0, len);
}

static values values_of(char *word) {
    values all = {.len = 0};
    char *rest = is_none(word) ? NULL : word;
    for (char *part; (part = strsep(&rest, ","));) {
        if (all.len == MOST_VALUES || strlen(part) < 5)
            fail("bad values");
        all.at[all.len].kind = strncmp(part, "i64:", 4) == 0;
        all.at[all.len++].bits = strtoull(part + 4, NULL, 10);
    }
    return all;
}

#endif
