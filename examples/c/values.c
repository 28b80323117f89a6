/* A host that calls a component with values as JSON. It keeps the component's memory, and has no memory of a caller.
 *
 * witcall_export_call_json asks which blocks the arguments of a text need, has the component's allocator grant them,
 * puts the arguments there, runs the core function, and writes what it answered as JSON.
 *
 * witcall_json_fault says what is wrong in arguments that are refused, witcall_describe has all of the package in one
 * document, and witcall_explain says what is wrong with texts.
 */
#include "witcall_call.h"
#include <stdio.h>
#include <stdlib.h>
#include <string.h>

/* A string constant as bytes and their number. */
#define BYTES(text) (const uint8_t *)(text), strlen(text)

#define LENGTH 1024

static const char TEXT[] =
    "package demo:books;"
    "interface desk {"
    "  record book { title: string, pages: list<u16> }"
    "  record copy { title: string, pages: list<u16>, sum: u32 }"
    "  double: func(b: book) -> copy;"
    "}";

/* ---- the component: its memory, its allocator and its core function ---- */

static uint8_t memory[LENGTH];
static witcall_array_memory blocks = {memory, LENGTH, 0};

static uint32_t component_realloc(void *context, uint32_t old, uint32_t old_size, uint32_t align, uint32_t size) {
    uint32_t at = witcall_array_allocate(context, align, size);
    (void)old, (void)old_size;
    printf("%u bytes at %u\n", size, at);
    return at;
}

/* Doubles each number of the list where it is, and answers the address of a copy: the text's and the list's addresses
 * and lengths, and the sum.
   The context keeps the answer. */
static uint32_t core_double(void *context, const witcall_value *handed, uint32_t count, witcall_value *answer) {
    uint32_t copy[5] = {0}, at = witcall_array_allocate(&blocks, 4, sizeof copy);
    for (uint32_t i = 0; i < count; i++)
        copy[i] = handed[i].bits;
    printf("double(%u, %u, %u, %u)\n", copy[0], copy[1], copy[2], copy[3]);
    for (uint32_t i = 0; i < copy[3]; i++) {
        uint16_t number;
        memcpy(&number, memory + copy[2] + 2 * i, 2);
        number *= 2;
        memcpy(memory + copy[2] + 2 * i, &number, 2);
        copy[4] += number;
    }
    if (at == WITCALL_STOPPED)
        return WITCALL_STOPPED;
    memcpy(memory + at, copy, sizeof copy);
    *(witcall_value *)context = *answer = (witcall_value){.bits = at};
    return 1;
}

/* ---- the host ---- */

static witcall_package package = WITCALL_NONE;

/* Prints the line of a status that is not done. */
static void print_status(witcall_status status) {
    char line[WITCALL_MAX_STATUS_LINE + 1];
    printf("%s\n", witcall_status_words(status, line));
}

/* The count of a status; ends the program where the library says no. */
static uint32_t done(witcall_status status) {
    if (status.code == WITCALL_DONE)
        return status.count;
    print_status(status);
    exit(1);
}

/* Calls the function, and prints what a text with too little room is, and its result. */
static void call(uint32_t func, const char *json) {
    uint8_t few[8];
    witcall_value answer;
    witcall_guest component = witcall_array_guest(&blocks);
    witcall_body body = {.context = &answer, .run = core_double};
    witcall_export called = {&package, func, &component, &body};
    witcall_text result = WITCALL_NO_TEXT;
    component.realloc = component_realloc;
    done(witcall_export_call_json(&called, BYTES(json), &result));
    print_status(witcall_read_json(&package, func, &answer, 1, memory, LENGTH, few, sizeof few, LENGTH));
    printf("%.*s\n", (int)result.len, (const char *)result.bytes);
    witcall_text_free(&result);
}

/* Prints why a text is refused, and where it is wrong. */
static void refuse(uint32_t func, const char *json) {
    uint8_t line[256];
    witcall_status status = witcall_json_requests(&package, func, BYTES(json), NULL, 0, LENGTH);
    print_status(status);
    if (status.number != WITCALL_NOT_THIS_TYPE)
        return;
    uint32_t length = done(witcall_json_fault(&package, func, BYTES(json), line, sizeof line));
    printf("  %.*s\n", (int)length, (const char *)line);
}

/* Prints the package as one document. */
static void describe(void) {
    witcall_status asked = witcall_describe(&package, NULL, 0);
    uint8_t *json = malloc(asked.count);
    if (!json)
        exit(1);
    uint32_t length = done(witcall_describe(&package, json, asked.count));
    printf("%.*s\n", (int)length, (const char *)json);
    free(json);
}

/* Prints what is wrong with two texts, of which the first needs the second. */
static void explain(void) {
    static const char FIRST[] =
        "package demo:shop; interface till { use demo:books/desk.{copy}; pay: func(of: copi); }";
    static const char SECOND[] = "package demo:books; interface desk { record copy { sum: u32 } }";
    static const size_t LENGTHS[] = {sizeof FIRST - 1, sizeof SECOND - 1};
    uint8_t texts[sizeof FIRST + sizeof SECOND], json[512];
    memcpy(texts, FIRST, LENGTHS[0]);
    memcpy(texts + LENGTHS[0], SECOND, LENGTHS[1]);
    uint32_t length = done(witcall_explain(texts, LENGTHS[0] + LENGTHS[1], LENGTHS, 2, json, sizeof json));
    printf("%.*s", (int)length, (const char *)json);
}

int main(void) {
    done(witcall_open(BYTES(TEXT), &package));
    uint32_t func = done(witcall_find(&package, BYTES("demo:books/desk"), BYTES("double")));
    call(func, "[{\"title\":\"B\303\274cher\",\"pages\":[7,300,12]}]");
    refuse(func, "[{\"title\":\"B\"");
    refuse(func, "[{\"title\":\"B\",\"pages\":[7,70000]}]");
    refuse(func, "[]");
    describe();
    explain();
    witcall_close(&package);
    return 0;
}
