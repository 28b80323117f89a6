/* What all modules share: blocks of their own memory, and strings as they stand in it. */
#ifndef GUEST_H
#define GUEST_H
#include <stddef.h>
#include <stdint.h>

#define PAGE 65536u

/* A string: its address and its length in bytes. */
typedef struct {
    const char *at;
    size_t len;
} text;

/* How the host lets a module speak. */
__attribute__((import_module("host"), import_name("say"))) void say(const char *at, size_t len);

/* The steps of a call, by their numbers in witcall.h, and the one in which this module goes wrong on purpose. */
enum { LIFT_ARGS = 2, LOWER_ARGS, BODY, LIFT_RESULT, LOWER_RESULT, POST };
static int fault;

__attribute__((export_name("go_wrong_in"))) void go_wrong_in(int step) {
    fault = step;
}

extern char __heap_base;
static uintptr_t top;

/* The next block of so many bytes. The memory grows by as many pages as it takes. Sums have 64 bits, since addresses have 32. */
static void *block_of(size_t align, uint64_t size) {
    uint64_t from = top ? top : (uintptr_t)&__heap_base;
    uint64_t at = (from + align - 1) / align * align;
    if (size > UINT32_MAX - at)
        __builtin_trap();
    uint64_t end = at + size, pages = (end + PAGE - 1) / PAGE, has = __builtin_wasm_memory_size(0);
    if (pages > has && __builtin_wasm_memory_grow(0, pages - has) == (size_t)-1)
        __builtin_trap();
    top = end;
    return (void *)(uintptr_t)at;
}

/* The allocator that the Canonical ABI asks for. Here it only makes new blocks. If it has none, it traps. */
__attribute__((export_name("cabi_realloc"))) void *cabi_realloc(void *old, size_t old_size, size_t align, size_t size) {
    if (old || old_size || fault == LOWER_ARGS || fault == LOWER_RESULT)
        __builtin_trap();
    return block_of(align, size);
}
#endif
