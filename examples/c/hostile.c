/* Memories of a stranger: lists whose elements all lie at the same address, so that few bytes ask for many blocks.
 * Whatever the values are, the limit bounds what is asked for and the time (docs/C.md, "Time and memory of hostile
 * inputs"). It is built under the address and undefined behaviour sanitizers, and each memory is a block of its own.
 *
 * usage: hostile [MILLISECONDS]
 *
 * A line for each case goes to standard output. The exit status is 1 where one isn't as wanted, or takes longer than
 * MILLISECONDS of processor time. examples/run.sh asks for 100. The default of 15,000 is for an emulator on a busy
 * machine, and far below what the lists would take without a limit.
 */
#include "witcall.h"
#include <stdbool.h>
#include <stdio.h>
#include <stdlib.h>
#include <string.h>
#include <time.h>

#define BYTES(text) (const uint8_t *)(text), strlen(text)

/* The greatest size of the memory that is asked for blocks, in most cases. */
#define LIMIT 1048576

static witcall_package package = WITCALL_NONE;
static bool failed = false;
static double most_milliseconds = 15000;

/* ---- cases ---- */

/* What a case asks for: the blocks, and their bytes. */
typedef struct {
    uint64_t count, bytes;
} asked;

static double milliseconds(void) {
    struct timespec time;
    clock_gettime(CLOCK_THREAD_CPUTIME_ID, &time);
    return time.tv_sec * 1e3 + time.tv_nsec / 1e6;
}

static void holds(const char *name, bool fact) {
    if (!fact) {
        printf("FAILED %s\n", name);
        failed = true;
    }
}

static void in_time(const char *name, double began) {
    double took = milliseconds() - began;
    if (took > most_milliseconds) {
        printf("FAILED %s: %.0f ms\n", name, took);
        failed = true;
    }
}

static void print_status(const char *name, const char *limit, witcall_status status) {
    uint8_t line[WITCALL_MAX_STATUS_LINE];
    witcall_status told = witcall_status_line(status, line, sizeof line);
    if (status.code == WITCALL_DONE)
        printf("%s, %s: %u blocks\n", name, limit, status.count);
    else
        printf("%s, %s: %.*s\n", name, limit, (int)told.count, (const char *)line);
}

/* The status is that of a call which asks for this, within a limit. */
static void expect(const char *name, const char *words, witcall_status found, asked all, uint64_t limit) {
    const bool fits = all.bytes <= limit;
    print_status(name, words, found);
    holds(name, found.code == (fits ? WITCALL_DONE : WITCALL_REFUSED));
    holds(name, found.number == (fits ? 0 : WITCALL_ABOVE_LIMIT));
    holds(name, found.step == 0 && found.count == (fits ? all.count : 0));
}

static void *array(size_t count, size_t size) {
    void *made = calloc(count, size);
    if (!made)
        exit(2);
    return made;
}

static uint32_t found(const char *name) {
    witcall_status status = witcall_find(&package, BYTES("a:b/c"), BYTES(name));
    if (status.code != WITCALL_DONE)
        exit(2);
    return status.count;
}

/* ---- a call of one list, of an address and a length, and its answer, of an address alone ---- */

typedef struct {
    const char *name;
    uint32_t enter, leave; /* a function that takes the list, and one that returns it */
    uint8_t *memory;
    size_t len;
    witcall_value flats[2], answer;
    asked all;
} list_case;

static witcall_status enters_within(list_case *c, uint64_t limit) {
    return witcall_enter_requests(&package, c->enter, c->flats, 2, c->memory, c->len, NULL, 0, limit);
}

static witcall_status leaves_within(list_case *c, uint64_t limit) {
    return witcall_leave_requests(&package, c->leave, &c->answer, 1, c->memory, c->len, NULL, 0, limit);
}

static witcall_status call_enters_within(list_case *c, uint64_t limit) {
    witcall_call begun;
    holds("begin", witcall_begin(&package, c->enter, c->flats, 2, &begun).code == WITCALL_DONE);
    return witcall_call_enter_requests(&package, &begun, c->memory, c->len, NULL, 0, limit);
}

static witcall_status call_leaves_within(list_case *c, uint64_t limit) {
    const witcall_value area = {.bits = 0};
    witcall_call begun;
    holds("begin", witcall_begin(&package, c->leave, &area, 1, &begun).code == WITCALL_DONE);
    return witcall_call_leave_requests(&package, &begun, &c->answer, 1, c->memory, c->len, NULL, 0, limit);
}

/* Each way of asking, within a limit. */
static void ask(list_case *c, const char *words, uint64_t limit) {
    witcall_status (*const ways[])(list_case *, uint64_t) = {
        enters_within, leaves_within, call_enters_within, call_leaves_within};
    for (size_t i = 0; i < sizeof ways / sizeof *ways; i++) {
        double began = milliseconds();
        witcall_status status = ways[i](c, limit);
        in_time(c->name, began);
        if (i == 0)
            expect(c->name, words, status, c->all, limit);
        else
            holds(c->name, status.code == (c->all.bytes <= limit ? WITCALL_DONE : WITCALL_REFUSED));
    }
}

static void ask_around_the_sum(list_case *c) {
    ask(c, "a limit of just the sum", c->all.bytes);
    ask(c, "one byte less", c->all.bytes - 1);
}

/* No half does more than what was granted: if that is nothing, or the first block alone, it ends at the next one. */
static void halves(list_case *c) {
    uint8_t *target = array(LIMIT, 1);
    witcall_value *values = array(WITCALL_MAX_VALUES, sizeof *values);
    const witcall_value area = {.bits = LIMIT - 8};
    witcall_block first = {.align = 4, .size = 512, .at = 0};
    for (size_t blocks = 0; blocks < 2; blocks++) {
        double began = milliseconds();
        witcall_status entered = witcall_enter(
            &package, c->enter, c->flats, 2, c->memory, c->len, target, LIMIT, &first, blocks, values,
            WITCALL_MAX_VALUES);
        witcall_status left = witcall_leave(
            &package, c->leave, &area, 1, &c->answer, 1, c->memory, c->len, target, LIMIT, &first, blocks, values,
            WITCALL_MAX_VALUES);
        in_time(c->name, began);
        print_status(c->name, blocks ? "enter with one block" : "enter with no block", entered);
        print_status(c->name, blocks ? "leave with one block" : "leave with no block", left);
        holds(c->name, entered.code == WITCALL_TRAP && entered.number == 6 && entered.step == WITCALL_LOWER_ARGS);
        holds(c->name, left.code == WITCALL_TRAP && left.number == 6 && left.step == WITCALL_LOWER_RESULT);
    }
    free(target), free(values);
}

/* ---- lists within lists ---- */

#define LEAST_LEVELS 3
#define MOST_LEVELS 8
#define ELEMENTS 64

/* 64 elements at 0, each of which is the list of 64 elements at 0. */
static uint8_t *shared_lists(void) {
    const uint32_t pair[2] = {0, ELEMENTS};
    uint8_t *memory = array(ELEMENTS, sizeof pair);
    for (size_t i = 0; i < ELEMENTS; i++)
        memcpy(memory + i * sizeof pair, pair, sizeof pair);
    return memory;
}

/* What a list of so many levels asks for, of which the innermost is one of bytes. */
static asked of_levels(int levels) {
    asked all = {1, ELEMENTS};
    for (int i = 1; i < levels; i++)
        all = (asked){1 + ELEMENTS * all.count, 8 * ELEMENTS + ELEMENTS * all.bytes};
    return all;
}

static void levels(void) {
    for (int i = LEAST_LEVELS; i <= MOST_LEVELS; i++) {
        char name[32], enter[8], leave[8];
        snprintf(name, sizeof name, "%d levels in 512 bytes", i);
        snprintf(enter, sizeof enter, "take%d", i), snprintf(leave, sizeof leave, "give%d", i);
        list_case c = {
            name, found(enter), found(leave), shared_lists(), 8 * ELEMENTS, {{0, 0}, {0, ELEMENTS}}, {0, 0},
            of_levels(i)};
        ask(&c, "a limit of 1048576 bytes", LIMIT);
        ask(&c, "a limit of 0 bytes", 0);
        if (c.all.bytes < 32 * LIMIT)
            ask_around_the_sum(&c);
        halves(&c);
        free(c.memory);
    }
}

/* ---- lists of what lies at one place ---- */

/* The elements of a list, whose words are the same for all, and what each of them asks for. What they share begins
 * behind them. */
typedef struct {
    const char *name, *take, *give;
    size_t words, place; /* how many words an element has, and which of them is the address of what is shared */
    uint32_t word[4];
    asked each;
} shape;

#define SHARED 4096

static const shape SHAPES[] = {
    {"texts", "take-texts", "give-texts", 2, 0, {0, SHARED}, {1, SHARED}},
    {"options of texts", "take-options", "give-options", 3, 1, {1, 0, SHARED}, {1, SHARED}},
    {"results of lists", "take-results", "give-results", 3, 1, {0, 0, SHARED / 4}, {1, SHARED}},
    {"records", "take-records", "give-records", 4, 2, {0, 0, 0, SHARED / 2}, {2, SHARED}},
    {"empty texts", "take-texts", "give-texts", 2, 0, {0, 0}, {1, 0}},
};

/* A memory with these elements from 8 on, and then what they share; at 0 the list itself. */
static uint8_t *shared_elements(const shape *s, uint32_t count, size_t *len) {
    const size_t size = 4 * s->words;
    const uint32_t pair[2] = {8, count};
    *len = 8 + count * size + SHARED;
    uint8_t *memory = array(*len, 1);
    memcpy(memory, pair, sizeof pair);
    uint32_t words[4];
    memcpy(words, s->word, sizeof words);
    words[s->place] = 8 + count * size;
    for (size_t i = 0; i < count; i++)
        memcpy(memory + 8 + i * size, words, size);
    memset(memory + 8 + count * size, 'a', SHARED);
    return memory;
}

static void elements(const shape *s, uint32_t count) {
    char name[64];
    size_t len;
    snprintf(name, sizeof name, "%u %s at one place", count, s->name);
    uint8_t *memory = shared_elements(s, count, &len);
    asked all = {1 + count * s->each.count, (uint64_t)count * (4 * s->words + s->each.bytes)};
    list_case c = {name, found(s->take), found(s->give), memory, len, {{0, 8}, {0, count}}, {0, 0}, all};
    ask(&c, "a limit of 1048576 bytes", LIMIT);
    if (all.bytes < 32 * LIMIT)
        ask_around_the_sum(&c);
    free(memory);
}

/* ---- numbers within tuples: many nodes, of one byte each ---- */

#define NUMBERS 16384

static void tuples(void) {
    const size_t len = 8 + NUMBERS;
    uint8_t *memory = array(len, 1);
    memcpy(memory, (uint32_t[]){8, NUMBERS}, 8);
    list_case c = {
        "16384 numbers in 60 tuples", found("take-tuples"), found("give-tuples"), memory, len,
        {{0, 8}, {0, NUMBERS}}, {0, 0},
        {1, NUMBERS}};
    ask(&c, "a limit of 1048576 bytes", LIMIT);
    ask_around_the_sum(&c);
    free(memory);
}

/* ---- parameters that are a record in memory ---- */

static void spilled(void) {
    const witcall_value flat = {.bits = 0};
    uint8_t *memory = array(72, 1);
    for (size_t i = 0; i < 9; i++)
        memcpy(memory + 8 * i, (uint32_t[]){0, 72}, 8);
    const uint32_t func = found("spilled");
    const asked all = {10, 72 + 9 * 72};
    expect(
        "9 texts in a record", "a limit of just the sum",
        witcall_enter_requests(&package, func, &flat, 1, memory, 72, NULL, 0, all.bytes), all, all.bytes);
    expect(
        "9 texts in a record", "one byte less",
        witcall_enter_requests(&package, func, &flat, 1, memory, 72, NULL, 0, all.bytes - 1), all, all.bytes - 1);
    expect(
        "9 texts in a record", "the record alone",
        witcall_enter_requests(&package, func, &flat, 1, memory, 72, NULL, 0, 72), all, 72);
    free(memory);
}

/* ---- the package ---- */

/* Adds a function that takes this type, and one that returns it. */
static size_t put_both(char *text, size_t room, const char *name, const char *type) {
    return (size_t)snprintf(text, room, "  take%s: func(x: %s);\n  give%s: func() -> %s;\n", name, type, name, type);
}

/* A type within so many others. */
static const char *within(const char *outer, int count, const char *inner, char *out, size_t room) {
    size_t len = 0;
    for (int i = 0; i < count; i++)
        len += (size_t)snprintf(out + len, room - len, "%s<", outer);
    len += (size_t)snprintf(out + len, room - len, "%s", inner);
    for (int i = 0; i < count; i++)
        len += (size_t)snprintf(out + len, room - len, ">");
    return out;
}

static void open_package(void) {
    static char text[8192], type[1024], tuple[1024];
    size_t len =
        (size_t)snprintf(text, sizeof text, "package a:b;\ninterface c {\n  record r { a: string, b: list<u16> }\n");
    for (int i = LEAST_LEVELS; i <= MOST_LEVELS; i++) {
        char name[8];
        snprintf(name, sizeof name, "%d", i);
        len += put_both(text + len, sizeof text - len, name, within("list", i, "u8", type, sizeof type));
    }
    len += put_both(text + len, sizeof text - len, "-texts", "list<string>");
    len += put_both(text + len, sizeof text - len, "-options", "list<option<string>>");
    len += put_both(text + len, sizeof text - len, "-results", "list<result<list<u32>, list<u8>>>");
    len += put_both(text + len, sizeof text - len, "-records", "list<r>");
    within("tuple", 60, "u8", tuple, sizeof tuple);
    len += put_both(text + len, sizeof text - len, "-tuples", within("list", 1, tuple, type, sizeof type));
    snprintf(
        text + len, sizeof text - len,
        "  spilled: func(a: string, b: string, c: string, d: string, e: string, f: string, g: string, h: string,"
        " i: string);\n}\n");
    if (witcall_open(BYTES(text), &package).code != WITCALL_DONE)
        exit(2);
}

int main(int count, char **arguments) {
    if (count > 1)
        most_milliseconds = strtod(arguments[1], NULL);
    open_package();
    levels();
    for (size_t i = 0; i < sizeof SHAPES / sizeof *SHAPES; i++) {
        elements(&SHAPES[i], 64);
        elements(&SHAPES[i], 50000);
    }
    tuples();
    spilled();
    if (!failed)
        printf("each in time\n");
    witcall_close(&package);
    return failed;
}
