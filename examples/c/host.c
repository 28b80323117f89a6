/* A host with two linear memories, each with an allocator of its own, and one call from the one into the other.
 *
 * witcall_link_call makes the call. It asks which blocks the arguments need, has the callee's allocator grant them,
 * puts the arguments there, and runs the callee's core function. What it answers goes into the caller in the same way.
 *
 * shop.h has the package's types as they lie in a memory, and functions for both sides of a call. It is made of
 * shop.wit by wit-explain bind c. Here its names are used without the package's.
 */
#define WIT_SHORT_NAMES
#include "shop.h"
#include "witcall_call.h"
#include <stdio.h>
#include <stdlib.h>
#include <string.h>

/* A string constant as bytes and their number. */
#define BYTES(text) (const uint8_t *)(text), strlen(text)

/* ---- two memories ---- */

#define LENGTH 1024

static uint8_t caller_bytes[LENGTH], callee[LENGTH];
static witcall_array_memory caller = {caller_bytes, LENGTH, 0};
static uint32_t callee_top = LENGTH;

static uint8_t *callee_memory(void *context, size_t *len) {
    (void)context;
    *len = LENGTH;
    return callee;
}

/* Ends the program if a memory has no room. */
static uint32_t placed(uint32_t at) {
    if (at == WITCALL_STOPPED) {
        printf("a memory is full\n");
        exit(1);
    }
    return at;
}

/* The callee's allocator goes down. */
static uint32_t callee_alloc(uint32_t align, uint32_t size) {
    return size > callee_top ? WITCALL_STOPPED : (callee_top = (callee_top - size) / align * align);
}

static uint32_t print_block(const char *whose, uint32_t size, uint32_t at) {
    printf("%s: %u bytes at %u\n", whose, size, at);
    return at;
}

static uint32_t callee_realloc(void *context, uint32_t old, uint32_t old_size, uint32_t align, uint32_t size) {
    (void)context, (void)old, (void)old_size;
    return print_block("callee", size, callee_alloc(align, size));
}

/* The caller's allocator goes up. */
static uint32_t caller_realloc(void *context, uint32_t old, uint32_t old_size, uint32_t align, uint32_t size) {
    (void)context, (void)old, (void)old_size;
    return print_block("caller", size, witcall_array_allocate(&caller, align, size));
}

static void print_text(const uint8_t *memory, wit_string text) {
    printf("%.*s", (int)text.length, (const char *)memory + text.address);
}

static void print_lines(const uint8_t *memory, wit_list_desk_line lines) {
    for (uint32_t i = 0; i < lines.length; i++) {
        desk_line one = wit_list_desk_line_get(memory, lines, i);
        printf("  %u ", one.count);
        print_text(memory, one.item);
        printf("\n");
    }
}

/* ---- the two components ---- */

/* Puts a text into a block of the caller's. */
static wit_string put_text(const char *text) {
    return (wit_string){.address = placed(witcall_array_put(&caller, text, strlen(text))), .length = strlen(text)};
}

/* The caller's arguments: a name, and two lines in a block of their own. */
static desk_order_parameters make_arguments(void) {
    desk_order_parameters made = {.customer = put_text("M\303\274ller"), .lines = {.length = 2}};
    made.lines.address = placed(witcall_array_allocate(&caller, alignof(desk_line), 2 * sizeof(desk_line)));
    wit_list_desk_line_set(caller_bytes, made.lines, 0, (desk_line){.item = put_text("tea"), .count = 2});
    wit_list_desk_line_set(caller_bytes, made.lines, 1, (desk_line){.item = put_text("coffee"), .count = 1});
    return made;
}

/* The callee's core function, of customer and lines as they are flat. It returns the address of a receipt, on which
 * each line is
   there once more. */
static uint32_t order(void *context, const witcall_value *handed, uint32_t count, witcall_value *answer) {
    (void)context, (void)count;
    desk_order_parameters given = desk_order_receive(handed);
    uint32_t at = callee_alloc(DESK_ORDER_AREA_ALIGN, DESK_ORDER_AREA_SIZE);
    wit_string note = {callee_alloc(1, 8 + given.customer.length), 8 + given.customer.length};
    if (at == WITCALL_STOPPED || note.address == WITCALL_STOPPED)
        return WITCALL_STOPPED;
    memcpy(callee + note.address, "Thanks, ", 8);
    memcpy(callee + note.address + 8, callee + given.customer.address, given.customer.length);
    for (uint32_t i = 0; i < given.lines.length; i++) {
        desk_line one = wit_list_desk_line_get(callee, given.lines, i);
        one.count += 1;
        wit_list_desk_line_set(callee, given.lines, i, one);
    }
    *answer = desk_order_answer(callee, at, (desk_receipt){.number = 4711, .lines = given.lines, .note = note});
    return 1;
}

/* ---- the host ---- */

/* Ends the program where the library says no. */
static void check(witcall_status status) {
    char line[WITCALL_MAX_STATUS_LINE + 1];
    if (status.code == WITCALL_DONE)
        return;
    printf("%s\n", witcall_status_words(status, line));
    exit(1);
}

/* Prints how the parameters and the result lie in memory, and the kinds of the callee's core function. */
static void print_layout(witcall_package *package, uint32_t func) {
    witcall_part parts[2], result;
    uint32_t kinds[WITCALL_MAX_VALUES];
    witcall_status status = witcall_parameters(package, func, parts, 2);
    check(status);
    for (uint32_t i = 0; i < status.count; i++)
        printf("parameter %u: size %u align %u at %u\n", i, parts[i].size, parts[i].align, parts[i].offset);
    check(witcall_result(package, func, &result, 1));
    printf("result: size %u align %u\n", result.size, result.align);
    status = witcall_lifted_params(package, func, kinds, WITCALL_MAX_VALUES);
    check(status);
    printf("core function:");
    for (uint32_t i = 0; i < status.count; i++)
        printf(kinds[i] == 0 ? " i32" : " i64");
    printf("\n");
}

int main(void) {
    witcall_package package = WITCALL_NONE;
    check(witcall_open(BYTES(demo_shop_text), &package));
    witcall_status found = witcall_find(&package, BYTES(DESK_INTERFACE), BYTES(DESK_ORDER_NAME));
    check(found);
    uint32_t func = found.count;
    print_layout(&package, func);

    witcall_guest to = {.limit = LENGTH, .memory = callee_memory, .realloc = callee_realloc};
    witcall_guest from = witcall_array_guest(&caller);
    from.realloc = caller_realloc;
    witcall_body body = {.run = order};
    witcall_link link = {&package, func, &from, &to, &body};

    desk_order_parameters given = make_arguments();
    uint32_t area = placed(witcall_array_allocate(&caller, DESK_ORDER_AREA_ALIGN, DESK_ORDER_AREA_SIZE));
    witcall_value flats[DESK_ORDER_FLATS];
    desk_order_fill(flats, &given, area);
    check(witcall_link_call(&link, flats, DESK_ORDER_FLATS, NULL));

    desk_receipt back = desk_order_read(caller_bytes, area);
    printf("number %u\n", back.number);
    print_lines(caller_bytes, back.lines);
    print_text(caller_bytes, back.note);
    printf("\n");
    witcall_close(&package);
    return 0;
}
