/* The calls of bench/js.mjs through the C library: microseconds of processor time, the least of runs.
 *
 * cc -O2 -o js bench/js.c $(pkg-config --cflags --libs witcall) && ./js */
#include <stdio.h>
#include <stdlib.h>
#include <string.h>
#include <time.h>
#include <witcall.h>

#define RUNS 15
#define CALLS 20000
#define COUNT 16
#define PLACE 1024
#define BYTES(memory) memory, sizeof memory

static const char TEXT[] =
    "package a:b; interface c { f: func(s: string, l: list<u32>) -> string; g: func(a: u32, b: u64) -> u32; }";
static const char WORDS[] = "twenty bytes of text";
static uint8_t caller[65536], callee[65536];
static witcall_package package = WITCALL_NONE;

static uint32_t done(witcall_status status) {
    if (status.code == WITCALL_DONE)
        return status.count;
    fprintf(stderr, "code %u, number %u\n", status.code, status.number);
    exit(1);
}

/* Blocks that an allocator grants. */
static void grant(const witcall_request *asked, uint32_t count, witcall_block *blocks) {
    for (uint32_t k = 0; k < count; k++) {
        const uint32_t behind = asked[k].size == sizeof WORDS - 1 ? 256 : 768;
        blocks[k] = (witcall_block){asked[k].align, asked[k].size, PLACE + behind};
    }
}

static void call(uint32_t func, const witcall_value *flats, uint32_t length, witcall_value answer) {
    witcall_value handed[WITCALL_MAX_VALUES], back[WITCALL_MAX_VALUES];
    witcall_request asked[2];
    witcall_block blocks[2];
    witcall_call begun;
    done(witcall_begin(&package, func, flats, length, &begun));
    uint32_t count = done(witcall_call_enter_requests(&package, &begun, BYTES(caller), asked, 2, sizeof callee));
    grant(asked, count, blocks);
    done(witcall_call_enter(&package, &begun, BYTES(caller), BYTES(callee), blocks, count, handed, WITCALL_MAX_VALUES));
    count = done(witcall_call_leave_requests(&package, &begun, &answer, 1, BYTES(callee), asked, 2, sizeof caller));
    grant(asked, count, blocks);
    done(witcall_call_leave(
        &package, &begun, &answer, 1, BYTES(callee), BYTES(caller), blocks, count, back, WITCALL_MAX_VALUES));
}

static void measure(
    const char *what, const char *name, const witcall_value *flats, uint32_t length, witcall_value answer) {
    uint32_t func = done(witcall_find(&package, (const uint8_t *)"a:b/c", 5, (const uint8_t *)name, 1));
    double least = 1e9;
    for (int run = 0; run < RUNS; run++) {
        clock_t began = clock();
        for (int k = 0; k < CALLS; k++)
            call(func, flats, length, answer);
        double time = (double)(clock() - began) * 1e6 / CLOCKS_PER_SEC / CALLS;
        least = time < least ? time : least;
    }
    printf("%s: %.2f\n", what, least);
}

int main(void) {
    uint32_t pair[] = {PLACE + 32, sizeof WORDS - 1};
    memcpy(caller + PLACE + 32, WORDS, sizeof WORDS - 1);
    memcpy(callee + PLACE + 32, WORDS, sizeof WORDS - 1);
    memcpy(callee + PLACE, pair, sizeof pair);
    done(witcall_open((const uint8_t *)TEXT, sizeof TEXT - 1, &package));
    witcall_value values[] = {{0, PLACE + 32}, {0, sizeof WORDS - 1}, {0, PLACE + 64}, {0, COUNT}, {0, PLACE}};
    witcall_value numbers[] = {{0, 1}, {1, 2}};
    measure("a text and a list", "f", values, 5, (witcall_value){0, PLACE});
    measure("two numbers", "g", numbers, 2, (witcall_value){0, 1});
    witcall_close(&package);
    return 0;
}
