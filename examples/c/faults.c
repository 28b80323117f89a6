/* What the library answers where something is wrong, and at edges where nothing is. Each case says what it wants, as witcall.h has it, and
 * tests that nothing was written where nothing may be. It is built under the address and undefined behaviour sanitizers: all arrays are
 * blocks of their own, so that an access past one is found.
 *
 * A line for each case goes to standard output, with the library's own line; the exit status is 1 where one is not as wanted.
 */
#include "witcall.h"
#include <stdbool.h>
#include <stdio.h>
#include <stdlib.h>
#include <string.h>
#include <sys/mman.h>

#define LENGTH 64
#define ROOM WITCALL_MAX_VALUES
#define BYTES(text) (const uint8_t *)(text), strlen(text)

static const char TEXT[] =
    "package a:b;"
    "interface c {"
    "  f: func(s: string, t: list<u16>) -> string;"
    "  number: func(x: u32) -> u32;"
    "  pick: func(c: char, o: option<u8>) -> char;"
    "}";

/* `package a:b; interface c { f: func(x: u32) -> u32; }`, as `witcall bin` writes it. */
static const uint8_t BINARY[] =
    "\0asm\15\0\1\0\7\36\1A\2\1B\2\1@\1\1xy\0y\4\0\1f\1\0\4\0\5a:b/c\5\0\13\15\1\0\7package\3\0";

static witcall_package package = WITCALL_NONE;
static uint32_t function, number, pick;
static bool failed = false;

/* ---- cases ---- */

typedef struct {
    uint32_t code, number, step, count;
} wanted;

static const wanted DONE_WITH_NONE = {WITCALL_DONE, 0, 0, 0};

static wanted done(uint32_t count) {
    return (wanted){WITCALL_DONE, 0, 0, count};
}

static wanted refused(uint32_t number) {
    return (wanted){WITCALL_REFUSED, number, 0, 0};
}

static wanted no_room(uint32_t count) {
    return (wanted){WITCALL_REFUSED, WITCALL_NO_ROOM, 0, count};
}

static wanted other_block(uint32_t index) {
    return (wanted){WITCALL_REFUSED, WITCALL_OTHER_BLOCK, 0, index};
}

static wanted trap(uint32_t kind, uint32_t step) {
    return (wanted){WITCALL_TRAP, kind, step, 0};
}

static void holds(const char *name, bool fact) {
    if (!fact) {
        printf("FAILED %s\n", name);
        failed = true;
    }
}

static void expect(const char *name, witcall_status found, wanted w) {
    uint8_t line[WITCALL_MAX_STATUS_LINE];
    witcall_status told = witcall_status_line(found, line, sizeof line);
    holds("the line of a status has its size", told.code == WITCALL_DONE);
    printf("%s: %.*s\n", name, told.count ? (int)told.count : 4, told.count ? (const char *)line : "done");
    if (found.code == w.code && found.number == w.number && found.step == w.step && found.count == w.count)
        return;
    printf(
        "FAILED %s: wanted code %u number %u step %u count %u, found %u %u %u %u\n", name, w.code, w.number, w.step, w.count,
        found.code, found.number, found.step, found.count);
    failed = true;
}

/* ---- one call, between memories of 64 bytes ---- */

/* The string "hi" at 0, the list 1, 2, 3 at 4, the return area at 16. */
typedef struct {
    uint8_t *caller, *callee;
    witcall_value *flats, *handed;
    witcall_block *blocks;
} call;

static void *array(size_t count, size_t size) {
    void *made = calloc(count, size);
    if (!made)
        exit(2);
    return made;
}

static call new_call(void) {
    call c = {
        array(LENGTH, 1), array(LENGTH, 1), array(5, sizeof(witcall_value)), array(ROOM, sizeof(witcall_value)),
        array(2, sizeof(witcall_block))};
    memcpy(c.caller, "hi\0\0\1\0\2\0\3\0", 10);
    const uint32_t numbers[5] = {0, 2, 4, 3, 16};
    for (int i = 0; i < 5; i++)
        c.flats[i].bits = numbers[i];
    c.blocks[0] = (witcall_block){.align = 1, .size = 2, .at = 50};
    c.blocks[1] = (witcall_block){.align = 2, .size = 6, .at = 40};
    return c;
}

static void free_call(call c) {
    free(c.caller), free(c.callee), free(c.flats), free(c.handed), free(c.blocks);
}

static witcall_status requests(call c, witcall_request *out, size_t room) {
    return witcall_enter_requests(&package, function, c.flats, 5, c.caller, LENGTH, out, room, LENGTH);
}

static witcall_status requests_within(call c, uint64_t limit) {
    return witcall_enter_requests(&package, function, c.flats, 5, c.caller, LENGTH, NULL, 0, limit);
}

static witcall_status enter(call c, size_t blocks) {
    return witcall_enter(
        &package, function, c.flats, 5, c.caller, LENGTH, c.callee, LENGTH, c.blocks, blocks, c.handed, ROOM);
}

/* The answer "yo" at 8, told at 0. */
static void answer(call c, witcall_value *out) {
    memcpy(c.callee, "\10\0\0\0\2\0\0\0yo", 10);
    *out = (witcall_value){.bits = 0};
}

static witcall_status leave(call c, const witcall_value *answer, size_t blocks) {
    return witcall_leave(
        &package, function, c.flats, 5, answer, 1, c.callee, LENGTH, c.caller, LENGTH, c.blocks, blocks, c.handed, ROOM);
}

static bool is_zero(const uint8_t *bytes) {
    static const uint8_t zeros[LENGTH];
    return memcmp(bytes, zeros, LENGTH) == 0;
}

/* ---- what goes well ---- */

static void a_call(void) {
    call c = new_call();
    witcall_request *asked = array(2, sizeof *asked);
    witcall_value *back = array(1, sizeof *back);
    expect("requests", requests(c, asked, 2), done(2));
    holds("what is asked for", asked[0].align == 1 && asked[0].size == 2 && asked[1].align == 2 && asked[1].size == 6);
    expect("enter", enter(c, 2), done(4));
    holds("the values", c.handed[0].bits == 50 && c.handed[1].bits == 2 && c.handed[2].bits == 40 && c.handed[3].bits == 3);
    holds("the arguments", memcmp(c.callee + 50, "hi", 2) == 0 && memcmp(c.callee + 40, "\1\0\2\0\3\0", 6) == 0);
    answer(c, back);
    c.blocks[0].at = 30;
    expect("leave", leave(c, back, 1), done(0));
    holds("the result", memcmp(c.caller + 16, "\36\0\0\0\2\0\0\0", 8) == 0 && memcmp(c.caller + 30, "yo", 2) == 0);
    free(asked), free(back), free_call(c);
}

/* The callee's memory grows and moves while its allocator runs: it is taken anew for each step. */
static void a_memory_that_moved(void) {
    call c = new_call();
    expect("requests before it moves", requests(c, NULL, 0), done(2));
    c.callee = realloc(c.callee, 100 * LENGTH);
    if (!c.callee)
        exit(2);
    memset(c.callee + LENGTH, 0, 99 * LENGTH);
    c.blocks[0].at = 5000;
    expect("enter where it lies now", witcall_enter(
        &package, function, c.flats, 5, c.caller, LENGTH, c.callee, 100 * LENGTH, c.blocks, 2, c.handed, ROOM), done(4));
    holds("the text where it lies now", memcmp(c.callee + 5000, "hi", 2) == 0);
    free_call(c);
}

/* A pointer of length 0 may be null. */
static void null_pointers(void) {
    witcall_value *flat = array(1, sizeof *flat), *values = array(ROOM, sizeof *values);
    flat->bits = 7;
    expect("no memories: requests", witcall_enter_requests(&package, number, flat, 1, NULL, 0, NULL, 0, 0), done(0));
    expect("no memories: enter", witcall_enter(
        &package, number, flat, 1, NULL, 0, NULL, 0, NULL, 0, values, ROOM), done(1));
    holds("the number", values[0].kind == 0 && values[0].bits == 7);
    expect("no memories: requests back", witcall_leave_requests(&package, number, flat, 1, NULL, 0, NULL, 0, 0), done(0));
    expect("no memories: leave", witcall_leave(
        &package, number, flat, 1, flat, 1, NULL, 0, NULL, 0, NULL, 0, values, ROOM), done(1));
    expect("no values", witcall_enter_requests(&package, number, NULL, 0, NULL, 0, NULL, 0, 0), trap(8, WITCALL_LIFT_ARGS));
    expect("no names", witcall_find(&package, NULL, 0, NULL, 0), refused(WITCALL_NO_FUNCTION));
    expect("no room for the values", witcall_enter(
        &package, number, flat, 1, NULL, 0, NULL, 0, NULL, 0, NULL, 0), no_room(ROOM));
    free(flat), free(values);
}

/* ---- blocks ---- */

/* A block in the place of the first or the second, which is refused before a byte is written. */
static void bad_block(const char *name, int place, witcall_block block) {
    call c = new_call();
    c.blocks[place] = block;
    expect(name, enter(c, 2), refused(WITCALL_BAD_BLOCK));
    holds(name, is_zero(c.callee));
    free_call(c);
}

/* A good block that is not the one asked for. */
static void another_block(const char *name, int place, witcall_block block) {
    call c = new_call();
    c.blocks[place] = block;
    expect(name, enter(c, 2), other_block(place));
    free_call(c);
}

/* Where the allocator had no more blocks, it was full. */
static void few_blocks(const char *name, size_t count) {
    call c = new_call();
    expect(name, enter(c, count), trap(6, WITCALL_LOWER_ARGS));
    free_call(c);
}

/* Of a memory of 2^32 bytes no byte is read: none is there. */
static void a_memory_that_is_too_long(void) {
    const size_t length = (size_t)1 << 32;
    uint8_t *memory = mmap(NULL, length, PROT_NONE, MAP_PRIVATE | MAP_ANONYMOUS | MAP_NORESERVE, -1, 0);
    if (memory == MAP_FAILED)
        exit(2);
    call c = new_call();
    expect("a caller of 2^32 bytes: requests", witcall_enter_requests(
        &package, function, c.flats, 5, memory, length, NULL, 0, length), refused(WITCALL_BAD_BLOCK));
    expect("a caller of 2^32 bytes: enter", witcall_enter(
        &package, function, c.flats, 5, memory, length, c.callee, LENGTH, c.blocks, 2, c.handed, ROOM), refused(WITCALL_BAD_BLOCK));
    expect("a callee of 2^32 bytes", witcall_enter(
        &package, function, c.flats, 5, c.caller, LENGTH, memory, length, c.blocks, 2, c.handed, ROOM), refused(WITCALL_BAD_BLOCK));
    holds("nothing is written for it", is_zero(c.callee));
    munmap(memory, length), free_call(c);
}

static void a_block_of_the_answer(void) {
    call c = new_call();
    witcall_value *back = array(1, sizeof *back);
    answer(c, back);
    c.blocks[0] = (witcall_block){.align = 1, .size = 3, .at = 30};
    expect("a block of another size for the answer", leave(c, back, 1), other_block(0));
    c.blocks[0] = (witcall_block){.align = 1, .size = 2, .at = 63};
    expect("a block past the end for the answer", leave(c, back, 1), refused(WITCALL_BAD_BLOCK));
    expect("no block for the answer", leave(c, back, 0), trap(6, WITCALL_LOWER_RESULT));
    free(back), free_call(c);
}

static void blocks(void) {
    bad_block("a block misaligned", 1, (witcall_block){2, 6, 41});
    bad_block("a block past the end", 0, (witcall_block){1, 2, 63});
    bad_block("a block past 2^32", 0, (witcall_block){1, 2, 0xffffffff});
    bad_block("a block within another", 0, (witcall_block){1, 2, 42});
    bad_block("a block of alignment 0", 0, (witcall_block){0, 2, 50});
    bad_block("a block of alignment 3", 0, (witcall_block){3, 2, 48});
    bad_block("a block of alignment 16", 0, (witcall_block){16, 2, 48});
    another_block("a block of another size", 0, (witcall_block){1, 3, 50});
    another_block("a second block of another size", 1, (witcall_block){2, 4, 40});
    another_block("a block of another alignment", 0, (witcall_block){2, 2, 50});
    few_blocks("one block for two", 1);
    few_blocks("no block for two", 0);
    a_block_of_the_answer();
    a_memory_that_is_too_long();
}

/* ---- arrays ---- */

static void short_arrays(void) {
    call c = new_call();
    witcall_request *one = array(1, sizeof *one);
    expect("room for one request of two", requests(c, one, 1), done(2));
    holds("the first of them", one[0].align == 1 && one[0].size == 2);
    expect("room for 16 values", witcall_enter(
        &package, function, c.flats, 5, c.caller, LENGTH, c.callee, LENGTH, c.blocks, 2, c.handed, ROOM - 1), no_room(ROOM));
    holds("nothing is written for it", is_zero(c.callee));
    witcall_part *part = array(1, sizeof *part);
    expect("room for one part of two", witcall_parameters(&package, function, part, 1), no_room(2));
    expect("room for no kinds", witcall_lowered_params(&package, function, NULL, 0), no_room(5));
    uint8_t line[4];
    expect("room for a part of the line", witcall_status_line((witcall_status){WITCALL_REFUSED, 63, 0, 0}, line, 4), no_room(20));
    free(one), free(part), free_call(c);
}

/* What the call asks for has 8 bytes, and its answer 2: both are told with just these as the limit, and with less refused. */
static void limits(void) {
    call c = new_call();
    witcall_request *asked = array(2, sizeof *asked);
    witcall_value *back = array(1, sizeof *back), *flat = array(1, sizeof *flat);
    expect("a limit of what is asked for", witcall_enter_requests(
        &package, function, c.flats, 5, c.caller, LENGTH, asked, 2, 8), done(2));
    holds("what is asked for within it", asked[0].size == 2 && asked[1].size == 6);
    expect("a limit of one byte less", witcall_enter_requests(
        &package, function, c.flats, 5, c.caller, LENGTH, asked, 2, 7), refused(WITCALL_ABOVE_LIMIT));
    expect("no bytes at all", requests_within(c, 0), refused(WITCALL_ABOVE_LIMIT));
    expect("the most that a limit can be", requests_within(c, UINT64_MAX), done(2));
    expect("no bytes for a number", witcall_enter_requests(&package, number, flat, 1, NULL, 0, NULL, 0, 0), done(0));
    answer(c, back);
    expect("a limit of what the answer asks for", witcall_leave_requests(
        &package, function, back, 1, c.callee, LENGTH, asked, 1, 2), done(1));
    expect("a limit of one byte less for the answer", witcall_leave_requests(
        &package, function, back, 1, c.callee, LENGTH, asked, 1, 1), refused(WITCALL_ABOVE_LIMIT));
    holds("both memories are as they were", memcmp(c.caller, "hi\0\0\1\0\2\0\3\0", 10) == 0 && memcmp(c.callee + 8, "yo", 2) == 0);
    c.flats[1].bits = 0, c.flats[3].bits = 0;
    expect("no bytes for an empty text and an empty list", requests_within(c, 0), done(2));
    free(asked), free(back), free(flat), free_call(c);
}

static void core_values(void) {
    call c = new_call();
    witcall_value *many = array(ROOM + 1, sizeof *many);
    expect("four values of five", witcall_enter(
        &package, function, c.flats, 4, c.caller, LENGTH, c.callee, LENGTH, c.blocks, 2, c.handed, ROOM),
        trap(8, WITCALL_LIFT_ARGS));
    expect("eighteen values", witcall_enter_requests(&package, function, many, ROOM + 1, c.caller, LENGTH, NULL, 0, LENGTH),
        trap(8, WITCALL_LIFT_ARGS));
    c.flats[0].kind = 1;
    expect("an i64 for an i32", requests(c, NULL, 0), trap(8, WITCALL_LIFT_ARGS));
    c.flats[0].kind = 0;
    expect("nothing answered", witcall_leave(
        &package, function, c.flats, 5, NULL, 0, c.callee, LENGTH, c.caller, LENGTH, NULL, 0, c.handed, ROOM),
        trap(8, WITCALL_LIFT_RESULT));
    holds("the callee is as it was", is_zero(c.callee));
    c.blocks[0].at = 63;
    expect("four values and a bad block", witcall_enter(
        &package, function, c.flats, 4, c.caller, LENGTH, c.callee, LENGTH, c.blocks, 2, c.handed, ROOM),
        trap(8, WITCALL_LIFT_ARGS));
    free(many), free_call(c);
}

/* Core values of another signature at the second half, which are found before the blocks. */
static void other_flats_at_leave(void) {
    call c = new_call();
    witcall_value *back = array(1, sizeof *back), *many = array(ROOM + 1, sizeof *many);
    answer(c, back);
    c.blocks[0].at = 63;
    expect("leave with four values of five", witcall_leave(
        &package, function, c.flats, 4, back, 1, c.callee, LENGTH, c.caller, LENGTH, c.blocks, 1, c.handed, ROOM),
        trap(8, WITCALL_LOWER_RESULT));
    expect("leave with eighteen values", witcall_leave(
        &package, function, many, ROOM + 1, back, 1, c.callee, LENGTH, c.caller, LENGTH, c.blocks, 1, c.handed, ROOM),
        trap(8, WITCALL_LOWER_RESULT));
    expect("leave with nothing answered and a bad block", witcall_leave(
        &package, function, c.flats, 5, NULL, 0, c.callee, LENGTH, c.caller, LENGTH, c.blocks, 1, c.handed, ROOM),
        trap(8, WITCALL_LIFT_RESULT));
    c.flats[4].kind = 1;
    expect("leave with an i64 for an i32", leave(c, back, 1), trap(8, WITCALL_LOWER_RESULT));
    free(back), free(many), free_call(c);
}

/* ---- the components' own faults ---- */

static void bad_texts(void) {
    call c = new_call();
    witcall_value *back = array(1, sizeof *back);
    memcpy(c.caller, "\300\200", 2);
    expect("an argument that is no UTF-8: requests", requests(c, NULL, 0), trap(5, WITCALL_LIFT_ARGS));
    expect("an argument that is no UTF-8: enter", enter(c, 2), trap(5, WITCALL_LIFT_ARGS));
    answer(c, back);
    memcpy(c.callee + 8, "\300\200", 2);
    c.blocks[0].at = 30;
    expect("a result that is no UTF-8: requests", witcall_leave_requests(
        &package, function, back, 1, c.callee, LENGTH, NULL, 0, LENGTH), trap(5, WITCALL_LIFT_RESULT));
    expect("a result that is no UTF-8: leave", leave(c, back, 1), trap(5, WITCALL_LIFT_RESULT));
    free(back), free_call(c);
}

static void bad_chars_and_cases(void) {
    witcall_value *flats = array(3, sizeof *flats), *values = array(ROOM, sizeof *values);
    flats[0].bits = 0xd800;
    expect("a surrogate", witcall_enter_requests(&package, pick, flats, 3, NULL, 0, NULL, 0, 0), trap(1, WITCALL_LIFT_ARGS));
    flats[0].bits = 'a', flats[1].bits = 2;
    expect("the third case of an option", witcall_enter(
        &package, pick, flats, 3, NULL, 0, NULL, 0, NULL, 0, values, ROOM), trap(2, WITCALL_LIFT_ARGS));
    flats[0].bits = 0x110000;
    expect("an answer that is no char", witcall_leave_requests(&package, pick, flats, 1, NULL, 0, NULL, 0, 0), trap(1, WITCALL_LIFT_RESULT));
    free(flats), free(values);
}

/* A string that grew between the steps asks for another block than was granted. */
static void a_source_that_changed(void) {
    call c = new_call();
    expect("requests before it changes", requests(c, NULL, 0), done(2));
    c.flats[1].bits = 3;
    expect("enter once it has", enter(c, 2), other_block(0));
    c.flats[1].bits = LENGTH + 1;
    expect("a text past the end", enter(c, 2), trap(4, WITCALL_LIFT_ARGS));
    free_call(c);
}

static void return_areas(void) {
    call c = new_call();
    witcall_value *back = array(1, sizeof *back);
    answer(c, back);
    c.blocks[0].at = 30;
    c.flats[4].bits = 18;
    expect("a return area misaligned", leave(c, back, 1), trap(3, WITCALL_LOWER_RESULT));
    c.flats[4].bits = 60;
    expect("a return area past the end", leave(c, back, 1), trap(4, WITCALL_LOWER_RESULT));
    c.flats[4].bits = 16;
    c.blocks[0].at = 23;
    expect("a block that meets the return area", leave(c, back, 1), refused(WITCALL_BAD_BLOCK));
    c.blocks[0].at = 24;
    expect("a block behind the return area", leave(c, back, 1), done(0));
    free(back), free_call(c);
}

/* ---- handles ---- */

/* Each call says of this handle that it is not open. */
static void each_call(const char *name, witcall_package *handle) {
    const wanted not_open = refused(WITCALL_NOT_OPEN);
    witcall_value *values = array(ROOM, sizeof *values);
    witcall_call *kept = array(1, sizeof *kept);
    witcall_row_info row;
    witcall_member_info member;
    expect(name, witcall_find(handle, BYTES("a:b/c"), BYTES("f")), not_open);
    expect("its import", witcall_find_import(handle, BYTES("a:b/w"), BYTES("now")), not_open);
    expect("its export", witcall_find_export(handle, BYTES("a:b/w"), BYTES("now")), not_open);
    expect("its requests", witcall_enter_requests(handle, 0, NULL, 0, NULL, 0, NULL, 0, 0), not_open);
    expect("its enter", witcall_enter(handle, 0, NULL, 0, NULL, 0, NULL, 0, NULL, 0, values, ROOM), not_open);
    expect("its requests back", witcall_leave_requests(handle, 0, NULL, 0, NULL, 0, NULL, 0, 0), not_open);
    expect("its leave", witcall_leave(handle, 0, NULL, 0, NULL, 0, NULL, 0, NULL, 0, NULL, 0, values, ROOM), not_open);
    expect("its parameters", witcall_parameters(handle, 0, NULL, 0), not_open);
    expect("its result", witcall_result(handle, 0, NULL, 0), not_open);
    expect("its lifted parameters", witcall_lifted_params(handle, 0, NULL, 0), not_open);
    expect("its lifted result", witcall_lifted_result(handle, 0, NULL, 0), not_open);
    expect("its lowered parameters", witcall_lowered_params(handle, 0, NULL, 0), not_open);
    expect("its lowered result", witcall_lowered_result(handle, 0, NULL, 0), not_open);
    expect("its begin", witcall_begin(handle, 0, NULL, 0, kept), not_open);
    expect("its requests of a call", witcall_call_enter_requests(handle, kept, NULL, 0, NULL, 0, 0), not_open);
    expect("its enter of a call", witcall_call_enter(handle, kept, NULL, 0, NULL, 0, NULL, 0, values, ROOM), not_open);
    expect("its requests back of a call", witcall_call_leave_requests(handle, kept, NULL, 0, NULL, 0, NULL, 0, 0), not_open);
    expect("its leave of a call", witcall_call_leave(handle, kept, NULL, 0, NULL, 0, NULL, 0, NULL, 0, values, ROOM), not_open);
    expect("its requests of JSON", witcall_json_requests(handle, 0, NULL, 0, NULL, 0, 0), not_open);
    expect("its fill", witcall_fill_json(handle, 0, NULL, 0, NULL, 0, NULL, 0, values, ROOM), not_open);
    expect("its read", witcall_read_json(handle, 0, NULL, 0, NULL, 0, NULL, 0, 0), not_open);
    expect("its rows", witcall_row(handle, 0, &row), not_open);
    expect("its members", witcall_member(handle, 0, 0, &member), not_open);
    expect("its names", witcall_row_name(handle, 0, NULL, 0), not_open);
    expect("its labels", witcall_member_name(handle, 0, 0, NULL, 0), not_open);
    expect("its interfaces", witcall_owner_name(handle, WITCALL_INTERFACE, 0, NULL, 0), not_open);
    expect("its binary", witcall_to_binary(handle, NULL, 0), not_open);
    expect("its text", witcall_to_text(handle, NULL, 0), not_open);
    free(values), free(kept);
}

/* A handle on nothing, and one that was closed, and closed again. */
static void closed_handles(void) {
    witcall_package handle = WITCALL_NONE;
    each_call("a handle on nothing", &handle);
    expect("its line", witcall_line(&handle, NULL, 0), refused(WITCALL_NOT_OPEN));
    witcall_close(&handle);
    expect("a package to close", witcall_open(BYTES(TEXT), &handle), DONE_WITH_NONE);
    witcall_close(&handle);
    holds("a handle that is closed is on nothing", handle.at == NULL && handle.is_open == 0);
    each_call("a handle that is closed", &handle);
    witcall_close(&handle);
    expect("a handle that is closed twice", witcall_find(&handle, NULL, 0, NULL, 0), refused(WITCALL_NOT_OPEN));
}

/* A handle on what was refused: each call says that it is not open. */
static void a_package_refused(void) {
    static const char WRONG[] = "package a:b; interface c { f: func(x: t); }";
    witcall_package wrong = WITCALL_NONE;
    uint8_t line[64];
    expect("open", witcall_open(BYTES(WRONG), &wrong), refused(41));
    witcall_status told = witcall_line(&wrong, line, sizeof line);
    printf("its line: %.*s\n", (int)told.count, line);
    expect("no room for its line", witcall_line(&wrong, line, 4), no_room(told.count));
    each_call("a handle on what was refused", &wrong);
    witcall_close(&wrong);
    witcall_package none = WITCALL_NONE;
    expect("open no bytes", witcall_open(NULL, 0, &none), refused(32));
    witcall_close(&none);
}

/* ---- sets ---- */

/* The inputs of a set, one after another: a package, and one that uses a type of it. */
static const char USED[] = "package d:e@1.0.0; interface y { type t = u16; g: func(x: t) -> t; }";
static const char USING[] = "package a:b; interface x { use d:e/y@1.0.0.{t}; f: func(p: t) -> t; }";

static witcall_status open_set(const size_t *lengths, size_t count, witcall_package *handle) {
    char *inputs = array(1, sizeof USED + sizeof USING);
    strcpy(inputs, USED);
    strcat(inputs, USING);
    witcall_status status = witcall_open_set(BYTES(inputs), lengths, count, handle);
    free(inputs);
    return status;
}

/* These are not the lengths of the inputs, and the handle is on nothing. */
static void bad_lengths(const char *name, const size_t *lengths, size_t count) {
    witcall_package handle = WITCALL_NONE;
    expect(name, open_set(lengths, count, &handle), refused(WITCALL_BAD_LENGTHS));
    holds(name, handle.at == NULL && handle.is_open == 0);
    witcall_close(&handle);
}

static void sets(void) {
    const size_t used = strlen(USED), using = strlen(USING);
    witcall_package set = WITCALL_NONE, refusal = WITCALL_NONE;
    expect("a set", open_set((size_t[]){used, using}, 2, &set), DONE_WITH_NONE);
    witcall_status last = witcall_find(&set, BYTES("a:b/x"), BYTES("f"));
    witcall_status first = witcall_find(&set, BYTES("d:e/y@1.0.0"), BYTES("g"));
    expect("a function of the last package", last, done(last.count));
    expect("a function of the first", first, done(first.count));
    holds("they are two", first.count != last.count);
    witcall_close(&set);
    expect("a set without the package that it uses", witcall_open_set(BYTES(USING), &using, 1, &refusal), refused(47));
    witcall_close(&refusal);
    expect("a package alone", witcall_open_set(BYTES(USED), &used, 1, &set), DONE_WITH_NONE);
    witcall_close(&set);
    bad_lengths("lengths that are too short", (size_t[]){used, using - 1}, 2);
    bad_lengths("lengths that are too long", (size_t[]){used, using + 1}, 2);
    bad_lengths("lengths that wrap", (size_t[]){used, SIZE_MAX}, 2);
    bad_lengths("one length of two", (size_t[]){used}, 1);
    bad_lengths("no lengths", NULL, 0);
    expect("no bytes, no lengths", witcall_open_set(NULL, 0, NULL, 0, &set), refused(WITCALL_BAD_LENGTHS));
    expect("an empty input", witcall_open_set(NULL, 0, (size_t[]){0}, 1, &set), refused(32));
    witcall_close(&set);
}

/* ---- modules ---- */

/* A core module that has nothing but a section with its world: a:b/w, which imports a:b/i. */
static const uint8_t MODULE[] = {
    0x00, 0x61, 0x73, 0x6d, 0x01, 0x00, 0x00, 0x00, 0x00, 0x9b, 0x01, 0x10, 0x63, 0x6f, 0x6d, 0x70, 0x6f, 0x6e, 0x65, 0x6e,
    0x74, 0x2d, 0x74, 0x79, 0x70, 0x65, 0x3a, 0x77, 0x00, 0x61, 0x73, 0x6d, 0x0d, 0x00, 0x01, 0x00, 0x00, 0x19, 0x16, 0x77,
    0x69, 0x74, 0x2d, 0x63, 0x6f, 0x6d, 0x70, 0x6f, 0x6e, 0x65, 0x6e, 0x74, 0x2d, 0x65, 0x6e, 0x63, 0x6f, 0x64, 0x69, 0x6e,
    0x67, 0x04, 0x00, 0x07, 0x2b, 0x01, 0x41, 0x02, 0x01, 0x41, 0x02, 0x01, 0x42, 0x02, 0x01, 0x40, 0x01, 0x01, 0x78, 0x79,
    0x00, 0x77, 0x04, 0x00, 0x01, 0x66, 0x01, 0x00, 0x03, 0x00, 0x05, 0x61, 0x3a, 0x62, 0x2f, 0x69, 0x05, 0x00, 0x04, 0x00,
    0x05, 0x61, 0x3a, 0x62, 0x2f, 0x77, 0x04, 0x00, 0x0b, 0x07, 0x01, 0x00, 0x01, 0x77, 0x03, 0x00, 0x00, 0x00, 0x2f, 0x09,
    0x70, 0x72, 0x6f, 0x64, 0x75, 0x63, 0x65, 0x72, 0x73, 0x01, 0x0c, 0x70, 0x72, 0x6f, 0x63, 0x65, 0x73, 0x73, 0x65, 0x64,
    0x2d, 0x62, 0x79, 0x01, 0x0d, 0x77, 0x69, 0x74, 0x2d, 0x63, 0x6f, 0x6d, 0x70, 0x6f, 0x6e, 0x65, 0x6e, 0x74, 0x07, 0x30,
    0x2e, 0x32, 0x34, 0x35, 0x2e, 0x31,
};

static void modules(void) {
    const size_t preamble = 8;
    witcall_package carried = WITCALL_NONE, refusal = WITCALL_NONE;
    uint8_t name[5], line[64];
    expect("a module with a world", witcall_open_module(MODULE, sizeof MODULE, &carried), DONE_WITH_NONE);
    expect("the name of its world", witcall_owner_name(&carried, WITCALL_WORLD, 0, name, sizeof name), done(5));
    holds("its name", memcmp(name, "a:b/w", 5) == 0);
    witcall_status f = witcall_find(&carried, BYTES("a:b/i"), BYTES("f"));
    expect("a function that it imports", f, done(f.count));
    witcall_close(&carried);
    expect("a module without a world", witcall_open_module(MODULE, preamble, &refusal), refused(44));
    expect("the line of its refusal", witcall_line(&refusal, line, sizeof line), done(strlen("error 44 not this shape")));
    witcall_close(&refusal);
    expect("a module that ends too early", witcall_open_module(MODULE, sizeof MODULE - 1, &refusal), refused(44));
    witcall_close(&refusal);
    expect("a text in place of a module", witcall_open_module(BYTES(TEXT), &refusal), refused(44));
    witcall_close(&refusal);
    expect("no bytes of a module", witcall_open_module(NULL, 0, &refusal), refused(44));
    witcall_close(&refusal);
}

/* ---- what a package has ---- */

/* Nothing has these numbers, and nothing is written. */
static void not_there(void) {
    const wanted w = refused(WITCALL_NOT_THERE);
    witcall_row_info row, row_before;
    witcall_member_info member, member_before;
    memset(&row, 0xff, sizeof row), memset(&row_before, 0xff, sizeof row_before);
    memset(&member, 0xff, sizeof member), memset(&member_before, 0xff, sizeof member_before);
    expect("a row that is not there", witcall_row(&package, 4711, &row), w);
    expect("the last number of a row", witcall_row(&package, UINT32_MAX, &row), w);
    expect("the name of no row", witcall_row_name(&package, 4711, NULL, 0), w);
    expect("a member that is not there", witcall_member(&package, function, 2, &member), w);
    expect("the last index of a member", witcall_member(&package, function, UINT32_MAX, &member), w);
    expect("a member of no row", witcall_member(&package, 4711, 0, &member), w);
    expect("the label of no member", witcall_member_name(&package, function, 2, NULL, 0), w);
    expect("the label of no row's member", witcall_member_name(&package, 4711, 0, NULL, 0), w);
    expect("an interface that has no number", witcall_owner_name(&package, WITCALL_INTERFACE, 1, NULL, 0), w);
    expect("a world that has no number", witcall_owner_name(&package, WITCALL_WORLD, 0, NULL, 0), w);
    expect("no owner", witcall_owner_name(&package, WITCALL_NO_OWNER, 0, NULL, 0), w);
    expect("an owner of another kind", witcall_owner_name(&package, 3, 0, NULL, 0), w);
    holds("the row is as it was", memcmp(&row, &row_before, sizeof row) == 0);
    holds("the member is as it was", memcmp(&member, &member_before, sizeof member) == 0);
}

static void names_told(void) {
    uint8_t *name = array(5, 1), *one = array(1, 1);
    expect("no room for a name", witcall_row_name(&package, number, name, 5), no_room(6));
    expect("no room for a full name", witcall_owner_name(&package, WITCALL_INTERFACE, 0, name, 4), no_room(5));
    expect("no room for a label", witcall_member_name(&package, function, 0, NULL, 0), no_room(1));
    holds("no name is written", name[0] == 0);
    expect("room for a full name", witcall_owner_name(&package, WITCALL_INTERFACE, 0, name, 5), done(5));
    holds("the full name", memcmp(name, "a:b/c", 5) == 0);
    expect("room for a label", witcall_member_name(&package, function, 1, one, 1), done(1));
    holds("the label", one[0] == 't');
    free(name), free(one);
}

/* What is written of a package opens as one that has the same functions. */
static void written(const char *name, witcall_status (*write)(witcall_package *, uint8_t *, size_t)) {
    witcall_status asked = write(&package, NULL, 0);
    expect(name, asked, no_room(asked.count));
    uint8_t *bytes = array(asked.count, 1);
    expect("room for a part of it", write(&package, bytes, asked.count - 1), no_room(asked.count));
    holds("no part of it is written", bytes[0] == 0 && bytes[asked.count - 2] == 0);
    expect("room for it", write(&package, bytes, asked.count), done(asked.count));
    witcall_package again = WITCALL_NONE;
    expect("it opens", witcall_open(bytes, asked.count, &again), DONE_WITH_NONE);
    holds("its function", witcall_find(&again, BYTES("a:b/c"), BYTES("number")).count == number);
    witcall_close(&again), free(bytes);
}

/* A package that opens, and is too long to be written. count items, each of these parts with its number in between. */
static void too_long(
    const char *name, const char *front, const char *item, const char *end, unsigned count,
    witcall_status (*write)(witcall_package *, uint8_t *, size_t), uint32_t wanted_number) {
    const size_t room = strlen(front) + count * (strlen(item) + 8) + strlen(end) + 1;
    char *text = array(room, 1);
    size_t length = (size_t)snprintf(text, room, "%s", front);
    for (unsigned i = 0; i < count; i++)
        length += (size_t)snprintf(text + length, room - length, "a%05u%s", i, item);
    length += (size_t)snprintf(text + length, room - length, "%s", end);
    witcall_package big = WITCALL_NONE;
    expect(name, witcall_open((const uint8_t *)text, length, &big), DONE_WITH_NONE);
    expect("it is too long", write(&big, NULL, 0), refused(wanted_number));
    witcall_close(&big), free(text);
}

static void lists(void) {
    not_there();
    names_told();
    written("a binary", witcall_to_binary);
    written("a text", witcall_to_text);
    too_long("60,000 functions", "package a:b; interface c {", ":func();", "}", 60000, witcall_to_binary, 17);
    too_long("90,000 labels", "package a:b; interface c { enum e {", ",", "} }", 90000, witcall_to_text, 36);
}

/* ---- calls that keep their values ---- */

static void a_call_that_is_kept(void) {
    call c = new_call();
    witcall_call *kept = array(1, sizeof *kept);
    witcall_value *back = array(1, sizeof *back), *many = array(ROOM + 1, sizeof *many);
    witcall_request *asked = array(2, sizeof *asked);
    expect("begin", witcall_begin(&package, function, c.flats, 5, kept), DONE_WITH_NONE);
    memset(c.flats, 0xff, 5 * sizeof *c.flats);
    expect("its requests", witcall_call_enter_requests(&package, kept, c.caller, LENGTH, asked, 2, LENGTH), done(2));
    holds("what it asks for", asked[0].size == 2 && asked[1].size == 6);
    expect("its enter", witcall_call_enter(
        &package, kept, c.caller, LENGTH, c.callee, LENGTH, c.blocks, 2, c.handed, ROOM), done(4));
    holds("its arguments", memcmp(c.callee + 50, "hi", 2) == 0 && memcmp(c.callee + 40, "\1\0\2\0\3\0", 6) == 0);
    expect("its requests and a limit of one byte less", witcall_call_enter_requests(
        &package, kept, c.caller, LENGTH, asked, 2, 7), refused(WITCALL_ABOVE_LIMIT));
    answer(c, back);
    c.blocks[0].at = 30;
    expect("its requests back and a limit of one byte less", witcall_call_leave_requests(
        &package, kept, back, 1, c.callee, LENGTH, asked, 2, 1), refused(WITCALL_ABOVE_LIMIT));
    expect("its requests back", witcall_call_leave_requests(&package, kept, back, 1, c.callee, LENGTH, asked, 2, LENGTH), done(1));
    expect("its leave", witcall_call_leave(
        &package, kept, back, 1, c.callee, LENGTH, c.caller, LENGTH, c.blocks, 1, c.handed, ROOM), done(0));
    holds("its result", memcmp(c.caller + 16, "\36\0\0\0\2\0\0\0", 8) == 0 && memcmp(c.caller + 30, "yo", 2) == 0);
    witcall_call before;
    memcpy(&before, kept, sizeof before);
    expect("begin with four values of five", witcall_begin(&package, function, many, 4, kept), trap(8, WITCALL_LIFT_ARGS));
    expect("begin with eighteen values", witcall_begin(&package, function, many, ROOM + 1, kept), trap(8, WITCALL_LIFT_ARGS));
    expect("begin no function", witcall_begin(&package, 4711, many, 4, kept), refused(WITCALL_NO_FUNCTION));
    holds("a call that is not begun is as it was", memcmp(&before, kept, sizeof before) == 0);
    memset(kept, 0xff, sizeof *kept);
    expect("a call of other bytes", witcall_call_enter_requests(&package, kept, c.caller, LENGTH, asked, 2, LENGTH), refused(WITCALL_NO_FUNCTION));
    kept->func = function;
    expect("a call of too many values", witcall_call_enter_requests(&package, kept, c.caller, LENGTH, asked, 2, LENGTH), trap(8, WITCALL_LIFT_ARGS));
    free(kept), free(back), free(many), free(asked), free_call(c);
}

/* ---- values as JSON ---- */

static const char ARGUMENTS[] = "[\"hi\",[1,2,3]]";

static witcall_status json_requests(const char *json, witcall_request *out, size_t room, uint64_t limit) {
    return witcall_json_requests(&package, function, BYTES(json), out, room, limit);
}

static witcall_status fill(call c, const char *json, size_t blocks) {
    return witcall_fill_json(&package, function, BYTES(json), c.callee, LENGTH, c.blocks, blocks, c.handed, ROOM);
}

static witcall_status read_json(call c, const witcall_value *answer, uint8_t *json, size_t room, uint64_t limit) {
    return witcall_read_json(&package, function, answer, 1, c.callee, LENGTH, json, room, limit);
}

static void a_call_with_json(void) {
    call c = new_call();
    witcall_request *asked = array(2, sizeof *asked);
    witcall_value *back = array(1, sizeof *back);
    uint8_t *text = array(4, 1);
    expect("requests of JSON", json_requests(ARGUMENTS, asked, 2, LENGTH), done(2));
    holds("what it asks for", asked[0].align == 1 && asked[0].size == 2 && asked[1].align == 2 && asked[1].size == 6);
    expect("fill", fill(c, ARGUMENTS, 2), done(4));
    holds("the values", c.handed[0].bits == 50 && c.handed[1].bits == 2 && c.handed[2].bits == 40 && c.handed[3].bits == 3);
    holds("the arguments", memcmp(c.callee + 50, "hi", 2) == 0 && memcmp(c.callee + 40, "\1\0\2\0\3\0", 6) == 0);
    answer(c, back);
    expect("read and room for a part of it", read_json(c, back, text, 3, LENGTH), no_room(4));
    holds("no part of it is written", text[0] == 0);
    expect("read", read_json(c, back, text, 4, LENGTH), done(4));
    holds("the result", memcmp(text, "\"yo\"", 4) == 0);
    expect("read and a limit of what it asks for", read_json(c, back, text, 4, 2), done(4));
    expect("read and a limit of one byte less", read_json(c, back, text, 4, 1), refused(WITCALL_ABOVE_LIMIT));
    memcpy(c.callee + 8, "\300\200", 2);
    expect("read what is no UTF-8", read_json(c, back, text, 4, LENGTH), trap(5, WITCALL_LIFT_RESULT));
    expect("read nothing answered", witcall_read_json(
        &package, function, NULL, 0, c.callee, LENGTH, text, 4, LENGTH), trap(8, WITCALL_LIFT_RESULT));
    free(asked), free(back), free(text), free_call(c);
}

/* A text that is refused asks for nothing, and puts nothing into the memory. */
static void bad_json(const char *name, const char *json, uint32_t wanted_number) {
    call c = new_call();
    expect(name, json_requests(json, NULL, 0, LENGTH), refused(wanted_number));
    expect(name, fill(c, json, 2), refused(wanted_number));
    holds(name, is_zero(c.callee) && c.handed[0].bits == 0);
    free_call(c);
}

static void json_that_is_refused(void) {
    bad_json("a text that is no UTF-8", "[\"\377\",[]]", WITCALL_BAD_JSON);
    bad_json("no text", "", WITCALL_BAD_JSON);
    bad_json("a text that ends early", "[\"hi\",[1,2", WITCALL_BAD_JSON);
    bad_json("one argument of two", "[\"hi\"]", WITCALL_NOT_THIS_TYPE);
    bad_json("a number that is too large", "[\"hi\",[65536]]", WITCALL_NOT_THIS_TYPE);
    expect("a null text", witcall_json_requests(&package, function, NULL, 0, NULL, 0, 0), refused(WITCALL_BAD_JSON));
    expect("the arguments of no function", witcall_json_requests(&package, 4711, NULL, 0, NULL, 0, 0), refused(63));
    call c = new_call();
    expect("a bad text and no room", witcall_fill_json(
        &package, function, BYTES("["), c.callee, LENGTH, c.blocks, 2, NULL, 0), refused(WITCALL_BAD_JSON));
    free_call(c);
}

/* A text of one byte more than a typed value may have. */
static void a_long_text(void) {
    const size_t length = 16777217, end = strlen("[\"\",[]]");
    char *json = array(length + end + 1, 1);
    memcpy(json, "[\"", 2), memset(json + 2, 'a', length), strcpy(json + 2 + length, "\",[]]");
    expect("an argument of 16,777,217 bytes", json_requests(json, NULL, 0, UINT64_MAX), trap(4, WITCALL_PLACE));
    free(json);
}

static void blocks_of_json(void) {
    call c = new_call();
    witcall_request *one = array(1, sizeof *one);
    expect("room for one request of JSON", json_requests(ARGUMENTS, one, 1, 8), done(2));
    holds("the first of them", one[0].align == 1 && one[0].size == 2);
    one[0].size = 4711;
    expect("requests of JSON and a limit of one byte less", json_requests(ARGUMENTS, one, 1, 7), refused(WITCALL_ABOVE_LIMIT));
    holds("the array is as it was", one[0].size == 4711);
    expect("fill and room for 16 values", witcall_fill_json(
        &package, function, BYTES(ARGUMENTS), c.callee, LENGTH, c.blocks, 2, c.handed, ROOM - 1), no_room(ROOM));
    c.blocks[1].at = 41;
    expect("fill a block misaligned", fill(c, ARGUMENTS, 2), refused(WITCALL_BAD_BLOCK));
    holds("nothing is filled", is_zero(c.callee));
    c.blocks[1].at = 40;
    expect("fill one block for two", fill(c, ARGUMENTS, 1), trap(6, WITCALL_PLACE));
    expect("fill with another text", fill(c, "[\"hi\",[1,2]]", 2), other_block(1));
    free(one), free_call(c);
}

/* Numbers go flat: they need no block, and no memory. */
static void numbers_of_json(void) {
    witcall_value *values = array(ROOM, sizeof *values);
    uint8_t *text = array(1, 1);
    expect("a number: requests", witcall_json_requests(&package, number, BYTES("[7]"), NULL, 0, 0), done(0));
    expect("a number: fill", witcall_fill_json(&package, number, BYTES("[7]"), NULL, 0, NULL, 0, values, ROOM), done(1));
    holds("the number", values[0].kind == 0 && values[0].bits == 7);
    expect("a number: read", witcall_read_json(&package, number, values, 1, NULL, 0, text, 1, 0), done(1));
    holds("the number", text[0] == '7');
    free(values), free(text);
}

static void json(void) {
    a_call_with_json();
    json_that_is_refused();
    a_long_text();
    blocks_of_json();
    numbers_of_json();
}

/* A body runs in the host, which may have the library write the line of its trap. */
static void a_body_that_stops(void) {
    expect("a body that stops", (witcall_status){WITCALL_TRAP, 7, 4, 0}, trap(7, 4));
    expect("a post-return that stops", (witcall_status){WITCALL_TRAP, 7, 7, 0}, trap(7, 7));
}

static void versions(void) {
    uint8_t version[WITCALL_MAX_STATUS_LINE];
    witcall_status told = witcall_version(version, sizeof version);
    expect("the library's version", told, done(told.count));
    holds("it has more than the header's", told.count > sizeof WITCALL_VERSION);
    holds("it begins with the header's", memcmp(version, WITCALL_VERSION "+", sizeof WITCALL_VERSION) == 0);
    witcall_status cut = witcall_version(version, 4);
    holds("there is no room for it", cut.code == WITCALL_REFUSED && cut.number == 71 && cut.count == told.count);
    holds("the binary interface is the header's", witcall_abi() == WITCALL_ABI);
}

/* ---- memory ---- */

/* Which of the next blocks is refused, counted from 1, or 0 for none. */
static long refused_block = 0;

void *__real_malloc(size_t size);
void *__real_realloc(void *old, size_t size);

static bool is_granted(void) {
    return refused_block == 0 || --refused_block > 0;
}

void *__wrap_malloc(size_t size) {
    return is_granted() ? __real_malloc(size) : NULL;
}

void *__wrap_realloc(void *old, size_t size) {
    return is_granted() ? __real_realloc(old, size) : NULL;
}

/* What opens a package: a text, a binary, a set. */
typedef witcall_status opener(witcall_package *handle);

static witcall_status opens_text(witcall_package *handle) {
    return witcall_open(BYTES(TEXT), handle);
}

static witcall_status opens_binary(witcall_package *handle) {
    return witcall_open(BINARY, sizeof BINARY, handle);
}

static witcall_status opens_set(witcall_package *handle) {
    return open_set((size_t[]){strlen(USED), strlen(USING)}, 2, handle);
}

/* Opens a package while this block is refused: whether it was out of memory, and by which number. */
static bool is_out_of_memory(opener *open, long block, bool seen[100]) {
    witcall_package opened = WITCALL_NONE;
    refused_block = block;
    witcall_status status = open(&opened);
    refused_block = 0;
    witcall_close(&opened);
    if (status.code == WITCALL_DONE)
        return false;
    holds("it is out of memory", status.code == WITCALL_NO_MEMORY && status.number < 100 && status.step == 0 && status.count == 0);
    seen[status.number % 100] = true;
    return true;
}

/* Each allocation of a package that is opened is refused in turn. */
static void refused_allocations(void) {
    opener *const ways[] = {opens_text, opens_binary, opens_set};
    bool seen[100] = {false};
    for (size_t i = 0; i < sizeof ways / sizeof *ways; i++) {
        long block = 1;
        while (is_out_of_memory(ways[i], block, seen))
            block++;
        holds("it asks for memory", block > 1);
    }
    for (uint32_t number = 0; number < 100; number++)
        if (seen[number])
            expect("out of memory", (witcall_status){WITCALL_NO_MEMORY, number, 0, 0}, (wanted){WITCALL_NO_MEMORY, number, 0, 0});
}

static witcall_status finds(call c) {
    (void)c;
    return witcall_find(&package, BYTES("a:b/c"), BYTES("f"));
}

static witcall_status asks(call c) {
    return requests(c, NULL, 0);
}

static witcall_status enters(call c) {
    return enter(c, 2);
}

static witcall_status asks_back(call c) {
    witcall_value back;
    answer(c, &back);
    return witcall_leave_requests(&package, function, &back, 1, c.callee, LENGTH, NULL, 0, LENGTH);
}

static witcall_status leaves(call c) {
    witcall_value back;
    answer(c, &back);
    c.blocks[0].at = 30;
    return leave(c, &back, 1);
}

static witcall_status asks_json(call c) {
    (void)c;
    return json_requests(ARGUMENTS, NULL, 0, LENGTH);
}

static witcall_status fills(call c) {
    return fill(c, ARGUMENTS, 2);
}

static witcall_status reads(call c) {
    witcall_value back;
    uint8_t text[4];
    answer(c, &back);
    return read_json(c, &back, text, sizeof text, LENGTH);
}

/* Each allocation of a step is refused in turn: it is done without, or out of memory, and then nothing is written. */
static void refused_in(witcall_status (*step)(call)) {
    bool was_refused = true;
    for (long block = 1; was_refused; block++) {
        call c = new_call(), before = new_call();
        refused_block = block;
        witcall_status status = step(c);
        was_refused = refused_block == 0;
        refused_block = 0;
        if (status.code != WITCALL_DONE) {
            holds("a call is out of memory", was_refused && status.code == WITCALL_NO_MEMORY && status.number == 66);
            holds("nothing is written", memcmp(c.caller, before.caller, LENGTH) == 0 && memcmp(c.callee + 10, before.callee + 10, LENGTH - 10) == 0);
        }
        free_call(c), free_call(before);
    }
}

static void refused_in_calls(void) {
    refused_in(finds);
    refused_in(asks);
    refused_in(enters);
    refused_in(asks_back);
    refused_in(leaves);
    refused_in(asks_json);
    refused_in(fills);
    refused_in(reads);
}

/* The first allocation of these is refused, and nothing is written. */
static void refused_names(void) {
    const wanted no_memory = {WITCALL_NO_MEMORY, 66, 0, 0};
    uint8_t *bytes = array(LENGTH, 1);
    refused_block = 1;
    expect("a full name out of memory", witcall_owner_name(&package, WITCALL_INTERFACE, 0, bytes, LENGTH), no_memory);
    refused_block = 1;
    expect("a binary out of memory", witcall_to_binary(&package, bytes, LENGTH), no_memory);
    refused_block = 1;
    expect("a text out of memory", witcall_to_text(&package, bytes, LENGTH), no_memory);
    refused_block = 0;
    holds("nothing is written without memory", is_zero(bytes));
    free(bytes);
}

static const char WORLD[] =
    "package a:b@1.0.0;"
    "interface c { f: func(); }"
    "world w {"
    "  import now: func() -> u64;"
    "  export now: func(s: string) -> u32;"
    "  export run: func();"
    "}";

/* A world imports a function and exports another one of the same name. */
static void functions_of_worlds(void) {
    witcall_package world = WITCALL_NONE;
    expect("a package with a world", witcall_open(BYTES(WORLD), &world), DONE_WITH_NONE);
    witcall_status import = witcall_find_import(&world, BYTES("a:b/w@1.0.0"), BYTES("now"));
    witcall_status export = witcall_find_export(&world, BYTES("a:b/w@1.0.0"), BYTES("now"));
    expect("a function that a world imports", import, done(import.count));
    expect("a function that a world exports", export, done(export.count));
    expect("the import has no parameters", witcall_parameters(&world, import.count, NULL, 0), done(0));
    expect("the export has one", witcall_parameters(&world, export.count, NULL, 0), no_room(1));
    expect("a world does not import what it exports", witcall_find_import(&world, BYTES("a:b/w@1.0.0"), BYTES("run")), refused(63));
    expect("a world without its version", witcall_find_export(&world, BYTES("a:b/w"), BYTES("run")), refused(63));
    expect("an interface is no world", witcall_find_export(&world, BYTES("a:b/c@1.0.0"), BYTES("f")), refused(63));
    expect("a world is no interface", witcall_find(&world, BYTES("a:b/w@1.0.0"), BYTES("run")), refused(63));
    witcall_close(&world);
}

static void names_and_numbers(void) {
    expect("an interface that is not there", witcall_find(&package, BYTES("a:b/d"), BYTES("f")), refused(63));
    expect("a function that is not there", witcall_find(&package, BYTES("a:b/c"), BYTES("g")), refused(63));
    expect("a name that is no UTF-8", witcall_find(&package, BYTES("a:b/\377"), BYTES("f")), refused(63));
    expect("a number of no function", witcall_enter_requests(&package, 4711, NULL, 0, NULL, 0, NULL, 0, 0), refused(63));
    uint8_t line[8];
    functions_of_worlds();
    witcall_status told = witcall_line(&package, line, sizeof line);
    holds("an open package has no line", told.code == WITCALL_DONE && told.count == 0);
}

static uint32_t found(const char *name) {
    witcall_status status = witcall_find(&package, BYTES("a:b/c"), BYTES(name));
    expect(name, status, done(status.count));
    return status.count;
}

int main(void) {
    expect("a package", witcall_open(BYTES(TEXT), &package), DONE_WITH_NONE);
    function = found("f");
    number = found("number");
    pick = found("pick");
    a_call();
    a_memory_that_moved();
    null_pointers();
    blocks();
    short_arrays();
    limits();
    core_values();
    other_flats_at_leave();
    bad_texts();
    bad_chars_and_cases();
    a_source_that_changed();
    return_areas();
    closed_handles();
    a_package_refused();
    sets();
    lists();
    a_call_that_is_kept();
    json();
    a_body_that_stops();
    versions();
    refused_allocations();
    refused_in_calls();
    refused_names();
    names_and_numbers();
    modules();
    witcall_close(&package);
    return failed;
}
