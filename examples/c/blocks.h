/* Values of many blocks, memories that have them, and the same values as JSON (many_blocks.c). It is C99 and C++11. */
#ifndef BLOCKS_H
#define BLOCKS_H

#include "witcall.h"
#include <inttypes.h>
#include <stdio.h>
#include <stdlib.h>
#include <string.h>

#define AREA_SIZE 16

/* Ends the program, where there is no memory or a test is wrong. */
static void stop(const char *why) {
    fprintf(stderr, "many_blocks: %s\n", why);
    exit(2);
}

static void *array(size_t size) {
    void *made = malloc(size ? size : 1);
    if (!made)
        stop("no memory");
    return made;
}

/* ---- values ---- */

/* A value of both lists: name i has i % 6 letters, and list i has i % 4 numbers. The seed makes them others. */
typedef struct {
    uint32_t names, lists, seed;
} value;

/* The core values of a value: addresses and lengths of both lists. */
typedef struct {
    uint32_t at[4];
} parts;

static value value_of(uint32_t blocks, uint32_t seed) {
    value v;
    v.lists = (blocks - 2) / 3;
    v.names = blocks - 2 - v.lists;
    v.seed = seed;
    return v;
}

static size_t blocks_of(value v) {
    return 2 + (size_t)v.names + v.lists;
}

static int letter_of(value v, uint32_t name) {
    return (int)('a' + (v.seed + name) % 26);
}

static uint32_t number_of(value v, uint32_t list, uint32_t place) {
    return v.seed * 1000000 + 10 * list + place;
}

/* The request of a block, which are asked for in this order. */
static witcall_request request_of(value v, size_t block) {
    witcall_request wanted = {4, 0};
    if (block == 0) {
        wanted.size = 8 * v.names;
    } else if (block <= v.names) {
        wanted.align = 1;
        wanted.size = (uint32_t)(block - 1) % 6;
    } else if (block == (size_t)v.names + 1) {
        wanted.size = 8 * v.lists;
    } else {
        wanted.size = 4 * ((uint32_t)(block - v.names - 2) % 4);
    }
    return wanted;
}

/* The bytes of all blocks. */
static uint32_t size_of(value v) {
    uint32_t size = 0;
    for (size_t block = 0; block < blocks_of(v); block++)
        size += request_of(v, block).size;
    return size;
}

/* ---- memories ---- */

/* A memory, whose blocks are above top. */
typedef struct {
    uint8_t *bytes;
    size_t len, top;
} linear_memory;

/* Puts a memory of so many bytes elsewhere. The bytes of before are others then, and are freed. */
static void move(linear_memory *m, size_t len) {
    uint8_t *moved = (uint8_t *)array(len);
    memset(moved, 0x5a, len);
    if (m->len)
        memcpy(moved, m->bytes, m->len < len ? m->len : len);
    if (m->bytes)
        memset(m->bytes, 0xee, m->len);
    free(m->bytes);
    m->bytes = moved;
    m->len = len;
}

/* A new block; the memory grows if it has no room. */
static uint32_t place(linear_memory *m, uint32_t align, uint32_t size) {
    size_t at = (m->top + align - 1) / align * align;
    m->top = at + size;
    if (m->top > m->len)
        move(m, m->top);
    return (uint32_t)at;
}

static void store(linear_memory *m, size_t at, uint32_t number) {
    memcpy(m->bytes + at, &number, sizeof number);
}

static uint32_t load(const linear_memory *m, size_t at) {
    uint32_t number;
    if (at > m->len || m->len - at < sizeof number)
        return UINT32_MAX;
    memcpy(&number, m->bytes + at, sizeof number);
    return number;
}

/* Puts an address and a length. */
static void store_pair(linear_memory *m, size_t at, uint32_t address, uint32_t length) {
    store(m, at, address);
    store(m, at + 4, length);
}

static parts put(linear_memory *m, value v) {
    parts p;
    p.at[0] = place(m, 4, 8 * v.names), p.at[1] = v.names;
    p.at[2] = place(m, 4, 8 * v.lists), p.at[3] = v.lists;
    for (uint32_t i = 0; i < v.names; i++) {
        uint32_t at = place(m, 1, i % 6);
        memset(m->bytes + at, letter_of(v, i), i % 6);
        store_pair(m, p.at[0] + 8 * i, at, i % 6);
    }
    for (uint32_t i = 0; i < v.lists; i++) {
        uint32_t at = place(m, 4, 4 * (i % 4));
        for (uint32_t k = 0; k < i % 4; k++)
            store(m, at + 4 * k, number_of(v, i, k));
        store_pair(m, p.at[2] + 8 * i, at, i % 4);
    }
    return p;
}

/* Puts a byte that no text has into a name in the middle. */
static void spoil(linear_memory *m, parts p) {
    uint32_t name = p.at[1] / 2 % 6 ? p.at[1] / 2 : p.at[1] / 2 + 1;
    m->bytes[load(m, p.at[0] + 8 * name)] = 0xff;
}

static int has_name(const linear_memory *m, size_t at, value v, uint32_t name) {
    size_t address = load(m, at), length = load(m, at + 4);
    if (length != name % 6 || address > m->len || length > m->len - address)
        return 0;
    for (size_t k = 0; k < length; k++)
        if (m->bytes[address + k] != letter_of(v, name))
            return 0;
    return 1;
}

static int has_list(const linear_memory *m, size_t at, value v, uint32_t list) {
    size_t address = load(m, at), length = load(m, at + 4);
    if (length != list % 4)
        return 0;
    for (uint32_t k = 0; k < length; k++)
        if (load(m, address + 4 * k) != number_of(v, list, k))
            return 0;
    return 1;
}

static int has_value(const linear_memory *m, parts p, value v) {
    if (p.at[1] != v.names || p.at[3] != v.lists)
        return 0;
    for (uint32_t i = 0; i < v.names; i++)
        if (!has_name(m, p.at[0] + (size_t)8 * i, v, i))
            return 0;
    for (uint32_t i = 0; i < v.lists; i++)
        if (!has_list(m, p.at[2] + (size_t)8 * i, v, i))
            return 0;
    return 1;
}

static void store_parts(linear_memory *m, size_t at, parts p) {
    for (size_t i = 0; i < 4; i++)
        store(m, at + 4 * i, p.at[i]);
}

static parts load_parts(const linear_memory *m, size_t at) {
    parts p;
    for (size_t i = 0; i < 4; i++)
        p.at[i] = load(m, at + 4 * i);
    return p;
}

/* ---- the same values as JSON ---- */

/* A text with an end. */
static char *json_of(value v) {
    char *text = (char *)array(64 * blocks_of(v)), *end = text;
    end += sprintf(end, "[[");
    for (uint32_t i = 0; i < v.names; i++) {
        end += sprintf(end, i ? ",\"" : "\"");
        for (uint32_t k = 0; k < i % 6; k++)
            *end++ = (char)letter_of(v, i);
        *end++ = '"';
    }
    end += sprintf(end, "],[");
    for (uint32_t i = 0; i < v.lists; i++) {
        end += sprintf(end, i ? ",[" : "[");
        for (uint32_t k = 0; k < i % 4; k++)
            end += sprintf(end, "%s%" PRIu32, k ? "," : "", number_of(v, i, k));
        *end++ = ']';
    }
    strcpy(end, "]]");
    return text;
}

#endif
