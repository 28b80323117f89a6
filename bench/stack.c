/* Measures how much stack the calls of the C library use. Each call runs in a thread whose stack was filled with one
 * byte; what is still filled afterwards was not used. What a thread uses that calls nothing is left out.
 *
 * usage: stack FILE ..
 *
 * Each file is opened as a package, and written as a text and as a binary. Calls are made of a function whose types
 * nest 64 deep. A line for each has the most bytes that it used.
 */
#include "witcall.h"
#include <pthread.h>
#include <stdbool.h>
#include <stdio.h>
#include <stdlib.h>
#include <string.h>
#include <sys/mman.h>

#define STACK 8388608
#define FILLED 0xa5
#define BYTES(text) (const uint8_t *)(text), strlen(text)

static witcall_package package = WITCALL_NONE;
static uint8_t *bytes, out[1048576];
static size_t bytes_len;

/* ---- the calls ---- */

/* A call as a thread runs it. */
#define CALL(name, call)            \
    static void *name(void *data) { \
        call;                       \
        return data;                \
    }

static void check(witcall_status status) {
    if (status.code != WITCALL_DONE)
        exit(2);
}

CALL(nothing, (void)0)
CALL(opens, witcall_open(bytes, bytes_len, &package))
CALL(writes_text, witcall_to_text(&package, out, sizeof out))
CALL(writes_binary, witcall_to_binary(&package, out, sizeof out))
CALL(closes, witcall_close(&package))

/* A call of `take: func(x: list<..<u8>..>)`, of lists within each other of one element each, and of
 * `give: func() -> list<..>`. The lists lie at 0, 8, 16 and so on in both memories; the answer behind those of the
 * callee, and the return area behind those of the caller. */
#define LISTS 63
#define BEHIND (8 * LISTS)

static uint8_t source[BEHIND + 8], target[BEHIND + 8];
static uint32_t take, give;
static const witcall_value FLATS[] = {{0, 0}, {0, 1}}, ANSWER = {0, BEHIND}, AREA = {0, BEHIND};
static witcall_block blocks[LISTS];
static witcall_value handed[WITCALL_MAX_VALUES];
static witcall_request asked[LISTS];

#define TAKEN &package, take, FLATS, 2, source, sizeof source
#define GIVEN &package, give, &ANSWER, 1, source, sizeof source
#define INTO target, sizeof target, blocks, LISTS, handed, WITCALL_MAX_VALUES

CALL(enter_requests, check(witcall_enter_requests(TAKEN, asked, LISTS, sizeof target)))
CALL(enters, check(witcall_enter(TAKEN, INTO)))
CALL(leave_requests, check(witcall_leave_requests(GIVEN, asked, LISTS, sizeof target)))
CALL(leaves, check(witcall_leave(&package, give, &AREA, 1, &ANSWER, 1, source, sizeof source, INTO)))

/* The same lists as JSON: each has one element, and the innermost one has the number 0. */
static char json[2 * LISTS + 4];

static void write_json(void) {
    memset(json, '[', LISTS + 1);
    json[LISTS + 1] = '0';
    memset(json + LISTS + 2, ']', LISTS + 1);
}

CALL(json_requests, check(witcall_json_requests(&package, take, BYTES(json), asked, LISTS, sizeof target)))
CALL(fills, check(witcall_fill_json(&package, take, BYTES(json), INTO)))
CALL(reads, check(witcall_read_json(GIVEN, out, sizeof out, sizeof target)))

/* ---- stacks ---- */

/* The bytes of a thread's stack that a call used. */
static size_t used(void *(*call)(void *)) {
    static uint8_t *stack;
    pthread_attr_t attributes;
    pthread_t thread;
    if (!stack)
        stack = mmap(NULL, STACK, PROT_READ | PROT_WRITE, MAP_PRIVATE | MAP_ANONYMOUS, -1, 0);
    memset(stack, FILLED, STACK);
    if (pthread_attr_init(&attributes) || pthread_attr_setstack(&attributes, stack, STACK) ||
        pthread_create(&thread, &attributes, call, NULL) || pthread_join(thread, NULL))
        exit(2);
    size_t filled = 0;
    while (filled < STACK && stack[filled] == FILLED)
        filled++;
    return STACK - filled;
}

static size_t most(size_t one, size_t other) {
    return one > other ? one : other;
}

static void read_file(const char *name) {
    FILE *file = fopen(name, "rb");
    if (!file)
        exit(2);
    bytes_len = fread(bytes, 1, 2097152, file);
    fclose(file);
}

static void print(const char *name, size_t size, size_t base) {
    printf("%s: %zu bytes\n", name, size > base ? size - base : 0);
}

static void calls(size_t base) {
    char text[2048] = "package a:b; interface c { ", type[1024] = "";
    for (int i = 0; i < LISTS; i++)
        strcat(type, "list<");
    strcat(type, "u8");
    for (int i = 0; i < LISTS; i++)
        strcat(type, ">");
    snprintf(text + strlen(text), sizeof text - strlen(text), "take: func(x: %s); give: func() -> %s; }", type, type);
    for (uint32_t i = 0; i < LISTS; i++) {
        const bool is_last = i + 1 == LISTS;
        memcpy(source + 8 * i, (uint32_t[]){is_last ? 0 : 8 * i + 8, is_last ? 0 : 1}, 8);
        blocks[i] = is_last ? (witcall_block){1, 1, 8 * i} : (witcall_block){4, 8, 8 * i};
    }
    memcpy(source + BEHIND, (uint32_t[]){0, 1}, 8);
    check(witcall_open(BYTES(text), &package));
    take = witcall_find(&package, BYTES("a:b/c"), BYTES("take")).count;
    give = witcall_find(&package, BYTES("a:b/c"), BYTES("give")).count;
    print("witcall_enter_requests", used(enter_requests), base);
    print("witcall_enter", used(enters), base);
    print("witcall_leave_requests", used(leave_requests), base);
    print("witcall_leave", used(leaves), base);
    write_json();
    print("witcall_json_requests", used(json_requests), base);
    print("witcall_fill_json", used(fills), base);
    print("witcall_read_json", used(reads), base);
    witcall_close(&package);
}

int main(int count, char **names) {
    size_t opening = 0, text = 0, binary = 0, closing = 0;
    bytes = malloc(2097152);
    if (!bytes)
        exit(2);
    const size_t base = used(nothing);
    for (int i = 1; i < count; i++) {
        read_file(names[i]);
        opening = most(opening, used(opens));
        text = most(text, used(writes_text));
        binary = most(binary, used(writes_binary));
        closing = most(closing, used(closes));
    }
    print("witcall_open", opening, base);
    print("witcall_to_text", text, base);
    print("witcall_to_binary", binary, base);
    print("witcall_close", closing, base);
    calls(base);
    free(bytes);
    return 0;
}
