/* Two guests whose memories and allocators are the host's, for a call that a page shows. The callee answers the string
 * that it is given. */
#include <string.h>
#include <witcall_call.h>

static uint8_t bytes[2][256];
static witcall_array_memory memories[] = {{bytes[0], 256, 128}, {bytes[1], 256, 128}};

static uint8_t *memory_of(void *context, size_t *len) {
    *len = ((witcall_array_memory *)context)->size;
    return ((witcall_array_memory *)context)->bytes;
}

static uint32_t realloc_of(void *context, uint32_t old, uint32_t old_size, uint32_t align, uint32_t size) {
    (void)old, (void)old_size;
    return witcall_array_allocate((witcall_array_memory *)context, align, size);
}

static uint32_t run_order(void *context, const witcall_value *handed, uint32_t count, witcall_value *answer) {
    const uint32_t pair[] = {(uint32_t)handed[0].bits, (uint32_t)handed[1].bits};
    memcpy(((witcall_array_memory *)context)->bytes + 8, pair, sizeof pair);
    *answer = (witcall_value){0, 8};
    return count == 4 ? 1 : WITCALL_STOPPED;
}

int main(void) {
    const uint8_t text[] = "package a:b; interface c { f: func(s: string, l: list<u32>) -> string; }";
    const witcall_value flats[] = {{0, 48}, {0, 3}, {0, 64}, {0, 2}, {0, 8}};
    witcall_array_memory *one = &memories[0], *other = &memories[1];
    witcall_package package = WITCALL_NONE;
    uint32_t pair[2];
    if (witcall_open(text, sizeof text - 1, &package).code != WITCALL_DONE)
        return 1;
    const uint32_t func = witcall_find(&package, (const uint8_t *)"a:b/c", 5, (const uint8_t *)"f", 1).count;
    memcpy(bytes[0] + 48, "tea", 3);

@BLOCK@
    witcall_close(&package);
    memcpy(pair, bytes[0] + 8, sizeof pair);
    return status.code != WITCALL_DONE || pair[1] != 3 || memcmp(bytes[0] + pair[0], "tea", 3) != 0;
}
