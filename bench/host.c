/* Times calls through the C library: both halves of a call of a number, and the first half of a call with a list of
 * bytes beside a copy of as many bytes. Nanoseconds of processor time of the thread, the least of 15 runs.
 *
 * Each run checks what the calls answer, and that the list's bytes are those of the copy.
 */
#include "witcall.h"
#include <stdbool.h>
#include <stdio.h>
#include <stdlib.h>
#include <string.h>
#include <time.h>

#define RUNS 15
#define LIST 1048576u

static const char TEXT[] = "package a:b; interface c { number: func(x: u32); bytes: func(x: list<u8>); }";

static witcall_package package = WITCALL_NONE;
static uint8_t *source, *target;

static double now(void) {
    struct timespec time;
    clock_gettime(CLOCK_THREAD_CPUTIME_ID, &time);
    return time.tv_sec * 1e9 + time.tv_nsec;
}

static void check(bool holds, const char *what) {
    if (!holds) {
        fprintf(stderr, "bench/host.c: %s\n", what);
        exit(1);
    }
}

/* The nanoseconds of a round, of so many. */
static double time_of(void (*round)(uint32_t), uint32_t rounds) {
    double least = 1e18;
    for (int run = 0; run < RUNS; run++) {
        double start = now();
        for (uint32_t i = 0; i < rounds; i++)
            round(i);
        double took = (now() - start) / rounds;
        least = took < least ? took : least;
    }
    return least;
}

/* Both halves of a call of `number`, which has no result, between memories of no bytes, as bench/calls.rs calls it by
 * `Link::call`. */
static uint32_t number;

static void call_of_number(uint32_t given) {
    witcall_value flat = {.bits = given}, handed[WITCALL_MAX_VALUES], back[WITCALL_MAX_VALUES];
    witcall_status entered = witcall_enter(
        &package, number, &flat, 1, NULL, 0, NULL, 0, NULL, 0, handed,
        WITCALL_MAX_VALUES);
    witcall_status left = witcall_leave(
        &package, number, &flat, 1, NULL, 0, NULL, 0, NULL, 0, NULL, 0, back,
        WITCALL_MAX_VALUES);
    check(entered.code == WITCALL_DONE && left.code == WITCALL_DONE && handed[0].bits == given, "a number");
}

/* The first half of a call of `bytes`, into a block at 0. */
static uint32_t bytes;

static void list_of_bytes(uint32_t round) {
    (void)round;
    witcall_value flats[2] = {{.bits = 0}, {.bits = LIST}}, handed[WITCALL_MAX_VALUES];
    witcall_block block = {.align = 1, .size = LIST, .at = 0};
    witcall_status entered = witcall_enter(
        &package, bytes, flats, 2, source, LIST, target, LIST, &block, 1, handed, WITCALL_MAX_VALUES);
    check(entered.code == WITCALL_DONE && handed[1].bits == LIST, "a list");
}

/* What a host writes by hand: the tests of the address and the length on both sides, and the copy. */
static void copy(uint32_t at) {
    volatile uint32_t from = 0, len = LIST;
    (void)at;
    check((uint64_t)from + len <= LIST, "a copy");
    memcpy(target, source + from, len);
    __asm__ volatile("" : : "r"(target) : "memory");
}

static uint32_t found(const char *function) {
    witcall_status status = witcall_find(
        &package, (const uint8_t *)"a:b/c", 5, (const uint8_t *)function, strlen(function));
    check(status.code == WITCALL_DONE, "find");
    return status.count;
}

int main(void) {
    check(witcall_open((const uint8_t *)TEXT, strlen(TEXT), &package).code == WITCALL_DONE, "open");
    number = found("number");
    bytes = found("bytes");
    source = malloc(LIST), target = malloc(LIST);
    check(source && target, "no memory");
    for (uint32_t i = 0; i < LIST; i++)
        source[i] = (i * 2654435761u) >> 24;
    memset(target, 0xee, LIST);
    list_of_bytes(0);
    check(memcmp(source, target, LIST) == 0, "other bytes");
    printf("number %.1f\n", time_of(call_of_number, 100000));
    printf("list %.0f\n", time_of(list_of_bytes, 1024));
    printf("copy %.0f\n", time_of(copy, 1024));
    witcall_close(&package);
    free(source), free(target);
    return 0;
}
