/* The memory that the library asks for: while `heap.counts`, each request is counted, and some are refused. The program
 * has to be linked with the shared library, whose malloc, realloc and free are then these. */
#ifndef COUNTED_H
#define COUNTED_H
#include <malloc.h>
#include <stdbool.h>
#include <stddef.h>
#include <stdint.h>
#include <stdio.h>
#include <stdlib.h>
#include <string.h>

void *__libc_malloc(size_t size);
void *__libc_calloc(size_t count, size_t size);
void *__libc_realloc(void *old, size_t size);
void __libc_free(void *block);

/* What glibc keeps in front of a block. */
#define HEADER 8

static struct {
    bool counts;
    size_t made;                     /* requests so far */
    size_t refused_at, refused_from; /* the number of a request that is refused, and of the first of all; 0 for none */
    size_t refused;                  /* how many were */
    size_t live, bytes, peak;        /* blocks that are held, their bytes, and the most that these were */
} heap;

static bool is_granted(void) {
    if (!heap.counts)
        return true;
    heap.made++;
    if (heap.made != heap.refused_at && (!heap.refused_from || heap.made < heap.refused_from))
        return true;
    heap.refused++;
    return false;
}

static void took(void *block) {
    heap.live++;
    heap.bytes += malloc_usable_size(block) + HEADER;
    heap.peak = heap.bytes > heap.peak ? heap.bytes : heap.peak;
}

static void left(void *block) {
    heap.live--;
    heap.bytes -= malloc_usable_size(block) + HEADER;
}

void *malloc(size_t size) {
    void *block = is_granted() ? __libc_malloc(size) : NULL;
    if (block)
        took(block);
    return block;
}

void *calloc(size_t count, size_t size) {
    void *block = is_granted() ? __libc_calloc(count, size) : NULL;
    if (block)
        took(block);
    return block;
}

void free(void *block) {
    if (!block)
        return;
    left(block);
    __libc_free(block);
}

/* While a block moves both are there. */
void *realloc(void *old, size_t size) {
    if (!is_granted())
        return NULL;
    const size_t before = old ? malloc_usable_size(old) + HEADER : 0;
    void *block = __libc_realloc(old, size);
    if (!block)
        return NULL;
    heap.live += old ? 0 : 1;
    heap.bytes += malloc_usable_size(block) + HEADER - before;
    const size_t most = heap.bytes + (block == old ? 0 : before);
    heap.peak = most > heap.peak ? most : heap.peak;
    return block;
}
#endif
