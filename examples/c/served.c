/* A host that serves functions which a component imports, with values as JSON. It keeps the component's memory.
 *
 * witcall_import_serve_json writes the arguments that the component passed as JSON, runs the host's function on them,
 * has the component's allocator grant the blocks that the result needs, puts the result there, and answers the value
 * that the component gets, if there is one.
 */
#include "witcall_call.h"
#include <stdio.h>
#include <stdlib.h>
#include <string.h>

/* A string constant as bytes and their number. */
#define BYTES(text) (const uint8_t *)(text), strlen(text)

#define LENGTH 1024

static const char TEXT[] =
    "package demo:books;"
    "interface shelf {"
    "  record book { title: string, pages: list<u16> }"
    "  search: func(word: string, most: u8) -> list<book>;"
    "  count: func() -> u64;"
    "  note: func(word: string);"
    "}";

/* The core values of a call, and how many they are. */
typedef struct {
    witcall_value at[WITCALL_MAX_VALUES];
    size_t count;
} values;

/* ---- the component: its memory and its allocator ---- */

static uint8_t memory[LENGTH];
static witcall_array_memory blocks = {memory, LENGTH, 128};

static uint32_t component_realloc(void *context, uint32_t old, uint32_t old_size, uint32_t align, uint32_t size) {
    uint32_t at = witcall_array_allocate(context, align, size);
    (void)old, (void)old_size;
    printf("%u bytes at %u\n", size, at);
    return at;
}

static uint32_t number_at(uint32_t at) {
    uint32_t number;
    memcpy(&number, memory + at, sizeof number);
    return number;
}

/* ---- the host ---- */

static witcall_package package = WITCALL_NONE;

/* Prints the line of a status that is not done. */
static void print_status(witcall_status status) {
    char line[WITCALL_MAX_STATUS_LINE + 1];
    printf("%s\n", witcall_status_words(status, line));
}

/* The count of a status; ends the program where the library says no. */
static uint32_t done(witcall_status status) {
    if (status.code == WITCALL_DONE)
        return status.count;
    print_status(status);
    exit(1);
}

static uint32_t function(const char *name) {
    return done(witcall_find(&package, BYTES("demo:books/shelf"), BYTES(name)));
}

/* A function of the host: prints its arguments, and gives this result. */
typedef struct {
    const char *name, *result;
} reply;

static uint32_t give(void *context, const uint8_t *json, size_t json_len, witcall_text *result) {
    const reply *r = context;
    if (r->name)
        printf("%s %.*s\n", r->name, (int)json_len, (const char *)json);
    return witcall_text_put(result, r->result, strlen(r->result));
}

/* Serves a call of the component by a function of the host. */
static witcall_status serve(uint32_t func, reply r, const values *flats, values *back) {
    witcall_guest component = witcall_array_guest(&blocks);
    const witcall_server server = {&r, give};
    const witcall_import import = {&package, func, &component};
    component.realloc = component_realloc;
    witcall_status served = witcall_import_serve_json(&import, &server, flats->at, flats->count, back->at);
    back->count = served.count;
    return served;
}

static values served(const char *name, const values *flats, const char *json) {
    values back;
    done(serve(function(name), (reply){name, json}, flats, &back));
    return back;
}

/* Calls that are refused: of other core values, with results that are none, and with return areas that are none. */
static void refuse(uint32_t func, const values *flats, const values *note) {
    uint8_t text[8];
    values back, other = *flats;
    const reply empty = {NULL, "[]"}, book = {NULL, "[{\"title\":\"\",\"pages\":[]}]"};
    print_status(witcall_read_arguments_json(
        &package, func, flats->at, flats->count, memory, LENGTH, text, sizeof text, LENGTH));
    other.count--;
    print_status(serve(func, empty, &other, &back));
    other = *flats, other.at[0].bits = LENGTH - 2;
    print_status(serve(func, empty, &other, &back));
    print_status(serve(func, (reply){NULL, "[7]"}, flats, &back));
    print_status(serve(function("note"), (reply){NULL, "7"}, note, &back));
    other = *flats, other.at[3].bits = 18;
    print_status(serve(func, empty, &other, &back));
    other.at[3].bits = LENGTH - 4;
    print_status(serve(func, empty, &other, &back));
    other.at[3].bits = blocks.top;
    print_status(serve(func, book, &other, &back));
}

int main(void) {
    done(witcall_open(BYTES(TEXT), &package));
    /* the component has its word at 64, and its return area at 16 */
    memcpy(memory + 64, "tea", 3);
    const values search = {{{0, 64}, {0, 3}, {0, 2}, {0, 16}}, 4}, none = {.count = 0}, note = {{{0, 64}, {0, 3}}, 2};
    values back = served("search", &search, "[{\"title\":\"Tea\",\"pages\":[1,300]}]");
    uint32_t book = number_at(16), title = number_at(book);
    printf("%zu values, %u books\n", back.count, number_at(20));
    printf("%.*s, %u pages\n", (int)number_at(book + 4), (const char *)memory + title, number_at(book + 12));
    back = served("count", &none, "18446744073709551615");
    printf("%zu values, %llu\n", back.count, (unsigned long long)back.at[0].bits);
    back = served("note", &note, "");
    printf("%zu values\n", back.count);
    refuse(function("search"), &search, &note);
    witcall_close(&package);
    return 0;
}
