/* The heap of the module: what the library allocates with, and what lib/core.js allocates with, over memory.grow. No
 * proof covers it.
 *
 * A block has a size class, and a list for each class has its free blocks. A free block is used again for its own class
 * alone, and is neither split nor joined. So each operation takes constant time, and what is never used again is at
 * most the sum of the most that each class held at a time. Addresses are multiples of 16.
 */
#include "types.h"

#define WASM_PAGE 65536ul

/* The least growth of the memory, in pages. */
#define LEAST_PAGES 16ul

/* Classes up to EVEN have so many bytes more each. Above, each power of two has four classes. */
#define STEP 16ul
#define EVEN 1024ul
#define EVEN_CLASSES (EVEN / STEP)
#define EVEN_BITS 10
#define MOST (1ul << 31)
#define CLASSES (EVEN_CLASSES + (31 - EVEN_BITS) * 4)

/* What is before each block, and the link of a free one. */
typedef struct block {
    uint64_t class;
    struct block *link;
} block;

_Static_assert(sizeof(block) == 16, "a header keeps addresses at multiples of 16");

extern uint8_t __heap_base;

static block *free_blocks[CLASSES];
static uint8_t *top, *end;

static uint64_t class_of(size_t size) {
    if (size <= EVEN)
        return size == 0 ? 0 : (size - 1) / STEP;
    uint64_t bits = 63 - __builtin_clzl(size - 1); /* 2^bits < size, and size is at most twice that */
    uint64_t quarter = ((size - 1) >> (bits - 2)) & 3;
    return EVEN_CLASSES + (bits - EVEN_BITS) * 4 + quarter;
}

static size_t size_of(uint64_t class) {
    if (class < EVEN_CLASSES)
        return STEP * (class + 1);
    uint64_t bits = (class - EVEN_CLASSES) / 4 + EVEN_BITS, quarter = (class - EVEN_CLASSES) % 4;
    return (1ul << bits) + ((quarter + 1) << (bits - 2));
}

/* Grows the memory by so many pages. The size says whether it did: what memory.grow returns differs once the memory is
 * lowered to 32 bits. */
static int grow(size_t pages) {
    size_t before = __builtin_wasm_memory_size(0);
    __builtin_wasm_memory_grow(0, pages);
    if (__builtin_wasm_memory_size(0) == before)
        return 0;
    end += pages * WASM_PAGE;
    return 1;
}

/* Whether the memory has so many bytes from top on, if need be by growing. */
static int has_room(size_t size) {
    if (!top) {
        top = (uint8_t *)(((uintptr_t)&__heap_base + STEP - 1) / STEP * STEP);
        end = (uint8_t *)(__builtin_wasm_memory_size(0) * WASM_PAGE);
    }
    size_t left = (size_t)(end - top);
    if (left >= size)
        return 1;
    size_t pages = (size - left + WASM_PAGE - 1) / WASM_PAGE;
    return (pages < LEAST_PAGES && grow(LEAST_PAGES)) || grow(pages);
}

void *malloc(size_t size) {
    if (size > MOST)
        return NULL;
    uint64_t class = class_of(size);
    block *found = free_blocks[class];
    if (found) {
        free_blocks[class] = found->link;
        return found + 1;
    }
    size_t whole = size_of(class) + sizeof(block);
    if (!has_room(whole))
        return NULL;
    found = (block *)top;
    top += whole;
    found->class = class;
    return found + 1;
}

void free(void *at) {
    if (!at)
        return;
    block *freed = (block *)at - 1;
    freed->link = free_blocks[freed->class];
    free_blocks[freed->class] = freed;
}

/* A block keeps its address if the size suits its class: at most what it holds, and at least half of that. */
static void *realloc(void *at, size_t size) {
    size_t held = size_of(((block *)at - 1)->class);
    if (size <= held && size >= held / 2)
        return at;
    void *moved = malloc(size);
    if (!moved)
        return NULL;
    __builtin_memcpy(moved, at, held < size ? held : size);
    free(at);
    return moved;
}

/* The three functions that the toolchain's crate libc declares in its module heap. If there is no memory, the address
 * is one that is not null, and belongs to nobody. A size of 0 gets a block of the alignment, which is at most 16. */
typedef struct {
    uint64_t ok;
    void *at;
} tried;

static uint8_t nothing[16] __attribute__((aligned(16)));

static tried answer(void *at) {
    return (tried){at != NULL, at ? at : nothing};
}

tried rattle_alloc(size_t size, size_t align) {
    return answer(malloc(size ? size : align));
}

tried rattle_realloc(void *at, size_t kept, size_t size, size_t align) {
    (void)kept;
    return answer(realloc(at, size ? size : align));
}

void rattle_dealloc(void *at) {
    free(at);
}
