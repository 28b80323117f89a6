/* Two instances of one store, which lends one memory at a time: all of it is in one window, and what was there before
 * is put away. So no half can have both memories, and witcall_link_call is no way between them.
 *
 * The host has a memory of its own between the two. witcall_import_serve carries the arguments from the caller into it,
 * and witcall_export_call from there into the callee; the result goes the other way. At each half one memory of the
 * store is lent. `relay` does so for any function.
 */
#include "witcall_call.h"
#include <stdio.h>
#include <stdlib.h>
#include <string.h>

/* A string constant as bytes and their number. */
#define BYTES(text) (const uint8_t *)(text), strlen(text)

#define LENGTH 512

static const char TEXT[] =
    "package demo:words; interface press { join: func(words: list<string>, between: char) -> string; }";

/* ---- the store ---- */

enum { CALLER, CALLEE, NONE };

static uint8_t window[LENGTH], kept[2][LENGTH];
static uint32_t tops[2] = {128, 128};
static const int NUMBERS[] = {CALLER, CALLEE};
static int lent = NONE;
static unsigned changes;

/* The memory of an instance. What was lent before is taken back. */
static uint8_t *lend(int number) {
    if (lent == number)
        return window;
    if (lent != NONE)
        memcpy(kept[lent], window, LENGTH);
    memcpy(window, kept[number], LENGTH);
    lent = number;
    changes++;
    return window;
}

static uint8_t *memory_of(void *context, size_t *len) {
    *len = LENGTH;
    return lend(*(const int *)context);
}

static uint32_t realloc_of(void *context, uint32_t old, uint32_t old_size, uint32_t align, uint32_t size) {
    uint32_t *top = &tops[*(const int *)context], at = (*top + align - 1) / align * align;
    (void)old, (void)old_size;
    if (at > LENGTH || size > LENGTH - at)
        return WITCALL_STOPPED;
    *top = at + size;
    return at;
}

static witcall_guest guest_of(int number) {
    witcall_guest guest = {.context = (void *)&NUMBERS[number], .limit = LENGTH, .memory = memory_of, .realloc =
        realloc_of};
    return guest;
}

static void put(int number, uint32_t at, const void *bytes, size_t size) {
    memcpy(lend(number) + at, bytes, size);
}

static void get(int number, uint32_t at, void *bytes, size_t size) {
    memcpy(bytes, lend(number) + at, size);
}

/* ---- the callee ---- */

/* The core function: the words with the character between them, which is ASCII here. It stops if there are none. */
static uint32_t join(void *context, const witcall_value *handed, uint32_t count, witcall_value *answer) {
    uint32_t words = handed[0].bits, length = handed[1].bits, pair[2] = {256, 0}, word[2];
    (void)context, (void)count;
    if (length == 0)
        return WITCALL_STOPPED;
    for (uint32_t i = 0; i < length; i++) {
        uint8_t *memory = lend(CALLEE);
        memcpy(word, memory + words + 8 * i, sizeof word);
        if (i > 0)
            memory[pair[0] + pair[1]++] = (uint8_t)handed[2].bits;
        memmove(memory + pair[0] + pair[1], memory + word[0], word[1]);
        pair[1] += word[1];
    }
    put(CALLEE, 64, pair, sizeof pair);
    *answer = (witcall_value){.bits = 64};
    return 1;
}

/* ---- the host ---- */

/* A function of the callee, which the caller imports, and the memory between them. status is that of the callee's side.
 * */
typedef struct {
    witcall_export called;
    witcall_array_memory own;
    witcall_status status;
} relayed;

/* The return area of a function as a block in the host's memory; size 0 if its result goes flat. */
static witcall_block area_of(const relayed *r, uint32_t count) {
    witcall_part result = {.size = 0};
    witcall_block area = {.align = 1};
    uint32_t kinds[WITCALL_MAX_VALUES];
    if (witcall_lowered_params(r->called.package, r->called.func, kinds, WITCALL_MAX_VALUES).count == count)
        return area;
    witcall_result(r->called.package, r->called.func, &result, 1);
    return (witcall_block){.align = result.align, .size = result.size};
}

/* The host's function: it calls the callee with the arguments that it gets, which are in the host's memory already. */
static uint32_t relay(void *context, const witcall_value *handed, uint32_t count, witcall_value *answer) {
    relayed *r = context;
    witcall_value flats[WITCALL_MAX_VALUES];
    witcall_block area = area_of(r, count);
    memcpy(flats, handed, count * sizeof *flats);
    if (area.size > 0) {
        area.at = witcall_array_allocate(&r->own, area.align, area.size);
        if (area.at == WITCALL_STOPPED)
            return WITCALL_STOPPED;
        flats[count++] = (witcall_value){.bits = area.at};
        *answer = flats[count - 1];
    }
    r->status = witcall_export_call(&r->called, &r->own, flats, count, answer);
    if (r->status.code != WITCALL_DONE)
        return WITCALL_STOPPED;
    return area.size > 0 ? 1 : r->status.count;
}

static void print_status(const char *whose, witcall_status status) {
    char line[WITCALL_MAX_STATUS_LINE + 1];
    printf("%s: %s\n", whose, status.code == WITCALL_DONE ? "done" : witcall_status_words(status, line));
}

/* The caller calls join with so many of its words. */
static void call(relayed *r, uint32_t length) {
    const witcall_guest caller = guest_of(CALLER);
    const witcall_import import = {r->called.package, r->called.func, &caller};
    const witcall_body body = {.context = r, .run = relay};
    const witcall_value flats[] = {{0, 64}, {0, length}, {0, '+'}, {0, 48}};
    print_status("caller", witcall_import_serve(&import, &r->own, &body, flats, 4, NULL));
    print_status("callee", r->status);
    printf("%u changes of the window, and %zu bytes of the host's are in use\n", changes, r->own.top);
}

int main(void) {
    static uint8_t own[LENGTH];
    const uint32_t words[] = {0, 3, 16, 6, 32, 3};
    uint32_t pair[2];
    char joined[LENGTH];
    witcall_package package = WITCALL_NONE;
    if (witcall_open(BYTES(TEXT), &package).code != WITCALL_DONE)
        return 1;
    uint32_t func = witcall_find(&package, BYTES("demo:words/press"), BYTES("join")).count;
    const witcall_guest callee = guest_of(CALLEE);
    const witcall_body body = {.run = join};
    relayed r = {{&package, func, &callee, &body}, {own, sizeof own, 0}, {0, 0, 0, 0}};

    put(CALLER, 0, "tea", 3), put(CALLER, 16, "coffee", 6), put(CALLER, 32, "rum", 3);
    put(CALLER, 64, words, sizeof words);
    call(&r, 3);
    get(CALLER, 48, pair, sizeof pair);
    get(CALLER, pair[0], joined, pair[1]);
    printf("%.*s\n", (int)pair[1], joined);
    call(&r, 0);
    witcall_close(&package);
    return 0;
}
