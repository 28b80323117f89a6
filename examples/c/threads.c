/* Two threads that make calls at the same time, each with a handle of its own (docs/C.md, "Threads"). It is built under the thread
 * sanitizer, which sees what is done in C and in the allocator, and run under helgrind, which also sees what the library does.
 *
 * A line for each thread goes to standard output; the exit status is 1 if a call isn't as wanted.
 */
#include "witcall.h"
#include <pthread.h>
#include <stdbool.h>
#include <stdio.h>
#include <string.h>

#define LENGTH 64
#define PACKAGES 20
#define CALLS 20
#define BYTES(text) (const uint8_t *)(text), strlen(text)

static const char TEXT[] = "package a:b; interface c { f: func(s: string) -> string; }";

typedef struct {
    pthread_t thread;
    uint8_t letter;
    size_t right;
} caller_thread;

static pthread_barrier_t start;

/* The string of two bytes at 0, the return area at 16; the answer is told at 8. Both memories have their block at 32. */
static bool is_called(witcall_package *package, uint32_t func, uint8_t letter) {
    uint8_t caller[LENGTH] = {letter, letter}, callee[LENGTH] = {0};
    const witcall_value flats[] = {{0, 0}, {0, 2}, {0, 16}}, answer = {0, 8};
    const witcall_block block = {.align = 1, .size = 2, .at = 32};
    witcall_value values[WITCALL_MAX_VALUES];
    witcall_call call;
    if (witcall_begin(package, func, flats, 3, &call).code != WITCALL_DONE)
        return false;
    witcall_status entered = witcall_call_enter(
        package, &call, caller, LENGTH, callee, LENGTH, &block, 1, values, WITCALL_MAX_VALUES);
    memcpy(callee + 8, (uint32_t[]){values[0].bits, values[1].bits}, 8);
    witcall_status left = witcall_call_leave(
        package, &call, &answer, 1, callee, LENGTH, caller, LENGTH, &block, 1, values, WITCALL_MAX_VALUES);
    return entered.code == WITCALL_DONE && left.code == WITCALL_DONE && memcmp(caller + 32, (uint8_t[]){letter, letter}, 2) == 0 &&
           memcmp(caller + 16, (uint32_t[]){32, 2}, 8) == 0;
}

/* A text that is no UTF-8: the call traps, and the trap has a line. */
static bool is_trapped(witcall_package *package, uint32_t func) {
    static const char WANTED[] = "trap K5 utf8 in lift-args";
    uint8_t caller[LENGTH] = {0xc0, 0x80}, line[WITCALL_MAX_STATUS_LINE];
    const witcall_value flats[] = {{0, 0}, {0, 2}, {0, 16}};
    witcall_status trap = witcall_enter_requests(package, func, flats, 3, caller, LENGTH, NULL, 0, LENGTH);
    witcall_status told = witcall_status_line(trap, line, sizeof line);
    return told.count == strlen(WANTED) && memcmp(line, WANTED, told.count) == 0;
}

static void *run(void *data) {
    caller_thread *own = data;
    pthread_barrier_wait(&start);
    for (size_t i = 0; i < PACKAGES; i++) {
        witcall_package package = WITCALL_NONE;
        witcall_open(BYTES(TEXT), &package);
        witcall_status found = witcall_find(&package, BYTES("a:b/c"), BYTES("f"));
        for (size_t n = 0; n < CALLS; n++)
            own->right += is_called(&package, found.count, own->letter) && is_trapped(&package, found.count);
        witcall_close(&package);
    }
    return NULL;
}

int main(void) {
    caller_thread threads[] = {{.letter = 'a'}, {.letter = 'b'}};
    bool failed = pthread_barrier_init(&start, NULL, 2) != 0;
    for (size_t i = 0; i < 2 && !failed; i++)
        failed = pthread_create(&threads[i].thread, NULL, run, &threads[i]) != 0;
    for (size_t i = 0; i < 2 && !failed; i++) {
        pthread_join(threads[i].thread, NULL);
        printf("thread %c: %zu calls of %d\n", threads[i].letter, threads[i].right, PACKAGES * CALLS);
        failed = threads[i].right != PACKAGES * CALLS;
    }
    return failed;
}
