/* A module whose blocks are those of a C library: malloc of wasi-libc, which is dlmalloc. heap.mjs says what its program
 * has in use: all of `program`, the stack from `frame` on while `run` runs, and the blocks that it holds. What the C
 * library has for itself is not in it.
 */
#include <stdalign.h>
#include <stddef.h>
#include <stdint.h>
#include <stdlib.h>

#define FRAME 1024

/* All variables of the program. */
static struct {
    uint8_t begun[1024];
    uint8_t empty[1024];
} program = {.begun = {1, 2, 3}};

__attribute__((import_module("host"), import_name("act"))) void act(uint8_t *frame);

__attribute__((export_name("program_at"))) void *program_at(void) {
    return &program;
}

__attribute__((export_name("program_size"))) size_t program_size(void) {
    return sizeof program;
}

/* Lets the host act while the program has something on its stack. */
__attribute__((export_name("run"))) void run(void) {
    alignas(8) uint8_t frame[FRAME];
    for (size_t i = 0; i < FRAME; i++)
        frame[i] = (uint8_t)(i * 7 + 1);
    act(frame);
}

/* A block of no bytes is at its alignment. If there is no room, this traps. */
__attribute__((export_name("cabi_realloc"))) void *cabi_realloc(void *old, size_t old_size, size_t align, size_t size) {
    (void)old_size;
    if (size == 0)
        return (void *)align;
    void *block = realloc(old, size);
    if (!block)
        __builtin_trap();
    return block;
}

__attribute__((export_name("release"))) void release(void *block) {
    free(block);
}
