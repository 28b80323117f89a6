/* The heap of the library for Linux on aarch64: what the toolchain's liblibc_c.a has for x86-64, over malloc. It is trusted, and not proved.
 *
 * A call answers whether it was granted, and where. A size of 0 asks for as many bytes as the alignment, so that each block has an address of its
 * own. malloc aligns each block to 16 bytes, and nothing asks for more. */
#include <stdint.h>
#include <stdlib.h>

typedef struct {
    uint64_t is_granted;
    void *at;
} answer;

static _Alignas(16) char nowhere[16];

static answer answer_of(void *block) {
    answer given = {block != NULL, block != NULL ? block : nowhere};
    return given;
}

answer rattle_alloc(uint64_t size, uint64_t align) { return answer_of(malloc(size != 0 ? size : align)); }

answer rattle_realloc(void *block, uint64_t old_size, uint64_t size, uint64_t align) {
    (void)old_size;
    return answer_of(realloc(block, size != 0 ? size : align));
}

void rattle_dealloc(void *block) { free(block); }
