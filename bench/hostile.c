/* Measures how long the calls of the C library take over inputs of a stranger: milliseconds of processor time, the
 * least of RUNS runs.
 *
 * usage: hostile
 *
 * - Lists within each other, 6 levels of 64 elements at one address in 512 bytes, and what they ask for within limits.
 * - Numbers, and cases of an enum, in 60 tuples each: what a list of them asks for, and the first half with its block.
 *   A case is tested, so that each tuple around it is a node that is visited.
 * - Texts of about 1 MiB: the time that opening takes, and the most memory of its process besides.
 * - A package of 60,000 functions: finding the last one, listing it, writing it.
 * - Sets of 1,000 to 64,000 interfaces of one function each: opening them, and finding functions by name.
 */
#include "witcall.h"
#include <stdio.h>
#include <stdlib.h>
#include <string.h>
#include <sys/resource.h>
#include <sys/wait.h>
#include <time.h>
#include <unistd.h>

#define RUNS 3
#define NUMBERS 1048576
#define IN_PACKAGE 16000
#define FOUND 1000
#define BYTES(text) (const uint8_t *)(text), strlen(text)

static witcall_package package = WITCALL_NONE;

static double milliseconds(void) {
    struct timespec time;
    clock_gettime(CLOCK_THREAD_CPUTIME_ID, &time);
    return time.tv_sec * 1e3 + time.tv_nsec / 1e6;
}

static void *array(size_t count, size_t size) {
    void *made = calloc(count, size);
    if (!made)
        exit(2);
    return made;
}

static void check(witcall_status status, uint32_t code, uint32_t number) {
    if (status.code == code && status.number == number)
        return;
    fprintf(stderr, "bench/hostile.c: code %u number %u\n", status.code, status.number);
    exit(1);
}

/* A type within so many others. */
static void put_within(char *out, const char *outer, int count, const char *inner) {
    for (int i = 0; i < count; i++)
        strcat(out, outer);
    strcat(out, inner);
    for (int i = 0; i < count; i++)
        strcat(out, ">");
}

static uint32_t opened(const char *types) {
    char text[2048];
    snprintf(text, sizeof text, "package a:b; interface c { enum e { a } f: func(x: %s); }", types);
    check(witcall_open(BYTES(text), &package), WITCALL_DONE, 0);
    return witcall_find(&package, BYTES("a:b/c"), BYTES("f")).count;
}

/* ---- lists that share their elements ---- */

/* Asks for what lists of so many levels need within a limit, which is their sum or less. */
static void lists(int levels, uint64_t limit, const char *words) {
    char types[256] = "";
    put_within(types, "list<", levels, "u8");
    const uint32_t func = opened(types);
    uint8_t *memory = array(64, 8);
    const witcall_value flats[] = {{0, 0}, {0, 64}};
    for (size_t i = 0; i < 64; i++)
        memcpy(memory + 8 * i, (uint32_t[]){0, 64}, 8);
    uint64_t sum = 64;
    for (int i = 1; i < levels; i++)
        sum = 512 + 64 * sum;
    double least = 1e18;
    for (int run = 0; run < RUNS; run++) {
        double began = milliseconds();
        witcall_status status =
            witcall_enter_requests(&package, func, flats, 2, memory, 512, NULL, 0, limit ? limit : sum);
        double took = milliseconds() - began;
        check(status, limit ? WITCALL_REFUSED : WITCALL_DONE, limit ? WITCALL_ABOVE_LIMIT : 0);
        least = took < least ? took : least;
    }
    printf(
        "%d levels in 512 bytes, limit %s%llu: %.2f ms\n", levels, words, (unsigned long long)(limit ? limit : sum),
        least);
    witcall_close(&package);
    free(memory);
}

/* ---- values in tuples ---- */

static void tuples(const char *type, const char *words) {
    char types[1024] = "list<";
    put_within(types, "tuple<", 60, type);
    strcat(types, ">");
    const uint32_t func = opened(types);
    uint8_t *memory = array(NUMBERS, 1), *target = array(NUMBERS, 1);
    const witcall_value flats[] = {{0, 0}, {0, NUMBERS}};
    const witcall_block block = {1, NUMBERS, 0};
    witcall_value handed[WITCALL_MAX_VALUES];
    double asking = 1e18, entering = 1e18;
    for (int run = 0; run < RUNS; run++) {
        double began = milliseconds();
        check(witcall_enter_requests(&package, func, flats, 2, memory, NUMBERS, NULL, 0, NUMBERS), WITCALL_DONE, 0);
        double asked = milliseconds();
        check(
            witcall_enter(
                &package, func, flats, 2, memory, NUMBERS, target, NUMBERS, &block, 1, handed, WITCALL_MAX_VALUES),
            WITCALL_DONE, 0);
        double entered = milliseconds();
        asking = asked - began < asking ? asked - began : asking;
        entering = entered - asked < entering ? entered - asked : entering;
    }
    printf("%d %s in 60 tuples: requests %.2f ms, enter %.0f ms\n", NUMBERS, words, asking, entering);
    witcall_close(&package);
    free(memory), free(target);
}

/* ---- texts of 1 MiB ---- */

/* A text that begins so, has these parts with their numbers as often as there is room, and ends so. */
typedef struct {
    const char *name, *front, *part, *end;
    uint32_t most; /* of the parts */
} shape;

static const shape SHAPES[] = {
    {"functions", "package a:b; interface c {", "a%u:func();", "}", 60000},
    {"members of a tuple", "package a:b; interface c { type t = tuple<u8", ",u8", ">; }", 300000},
    {"labels of an enum", "package a:b; interface c { enum e { a", ",b%u", "} }", 90000},
    {"types that name each the one before", "package a:b; interface c { type t%u = u8;", "type t%u=t%u;", "}", 60000},
    {"interfaces of one function each", "package a:b;", "interface i%u{f:func();}", "", 30000},
    {"results 63 deep", "package a:b; interface c {", "", "}", 1},
    {"comments within each other", "package a:b; ", "", "interface c { }", 1},
};

static char *repeated(const char *part, uint32_t count, char *to) {
    for (uint32_t i = 0; i < count; i++)
        to += sprintf(to, "%s", part);
    return to;
}

/* The text of a shape, of at most 1 MiB. */
static char *text_of(const shape *s) {
    char *text = array(1, 1 << 20), *to = text + sprintf(text, s->front, 0);
    const char *limit = text + (1 << 20) - 600;
    uint32_t count = 0;
    for (; *s->part && count < s->most && to < limit; count++)
        to += sprintf(to, s->part, count + 1, count);
    for (; !*s->part && strchr(s->name, '6') && to < limit; count++) {
        to += sprintf(to, "type t%u=", count);
        to = repeated("result<", 62, to), to = repeated(">", 62, to + sprintf(to, "u8"));
        to += sprintf(to, ";");
    }
    if (!*s->part && !strchr(s->name, '6'))
        to = repeated("*/", 250000, repeated("/*", 250000, to));
    sprintf(to, "%s", s->end);
    return text;
}

/* Opens a text in a process of its own, and prints the time and the most memory that it took besides. */
static void text(const shape *s) {
    char *given = text_of(s);
    struct rusage before, after;
    fflush(stdout);
    if (fork() == 0) {
        getrusage(RUSAGE_SELF, &before);
        double began = milliseconds();
        witcall_status status = witcall_open(BYTES(given), &package);
        double took = milliseconds() - began;
        getrusage(RUSAGE_SELF, &after);
        printf(
            "%s, %zu bytes: open %.0f ms, %ld KiB, error %u\n", s->name, strlen(given), took,
            after.ru_maxrss - before.ru_maxrss, status.number);
        exit(0);
    }
    wait(NULL);
    free(given);
}

/* ---- many functions ---- */

static void functions(void) {
    char *given = text_of(&SHAPES[0]);
    check(witcall_open(BYTES(given), &package), WITCALL_DONE, 0);
    double began = milliseconds();
    check(witcall_find(&package, BYTES("a:b/c"), BYTES("a59999")), WITCALL_DONE, 0);
    printf("60000 functions: find %.3f ms", milliseconds() - began);
    witcall_row_info row;
    uint8_t name[WITCALL_MAX_LABEL];
    began = milliseconds();
    for (uint32_t i = 0; witcall_row(&package, i, &row).code == WITCALL_DONE; i++)
        check(witcall_row_name(&package, i, name, sizeof name), WITCALL_DONE, 0);
    printf(", all rows with their names %.1f ms", milliseconds() - began);
    began = milliseconds();
    check(witcall_to_text(&package, NULL, 0), WITCALL_REFUSED, 36);
    printf(", to_text %.0f ms\n", milliseconds() - began);
    witcall_close(&package);
    free(given);
}

/* ---- many interfaces ---- */

/* The texts of packages `a:p0`, `a:p1` and so on, one after another, of so many interfaces together. */
static char *texts_of(uint32_t count, size_t *lengths) {
    char *given = array(count, 32), *to = given;
    for (uint32_t i = 0; i < count; i++) {
        if (i % IN_PACKAGE == 0)
            to += lengths[i / IN_PACKAGE] = (size_t)sprintf(to, "package a:p%u;", i / IN_PACKAGE);
        const int added = sprintf(to, "interface i%u{f:func();}", i);
        to += added, lengths[i / IN_PACKAGE] += (size_t)added;
    }
    return given;
}

/* Finds FOUND of the functions, which stand as far from each other. */
static void find_some(uint32_t count) {
    char name[32];
    for (uint32_t i = 0; i < FOUND; i++) {
        const uint32_t at = i * (count / FOUND);
        snprintf(name, sizeof name, "a:p%u/i%u", at / IN_PACKAGE, at);
        check(witcall_find(&package, BYTES(name), BYTES("f")), WITCALL_DONE, 0);
    }
}

static void interfaces(uint32_t count) {
    size_t lengths[5] = {0};
    const size_t inputs = (count + IN_PACKAGE - 1) / IN_PACKAGE;
    char *given = texts_of(count, lengths);
    double opening = 1e18, finding = 1e18;
    for (int run = 0; run < RUNS; run++) {
        double began = milliseconds();
        check(witcall_open_set(BYTES(given), lengths, inputs, &package), WITCALL_DONE, 0);
        double opened = milliseconds();
        find_some(count);
        double found = milliseconds();
        opening = opened - began < opening ? opened - began : opening;
        finding = found - opened < finding ? found - opened : finding;
        witcall_close(&package);
    }
    printf("%u interfaces: open %.0f ms, find %.2f us each\n", count, opening, finding / FOUND * 1e3);
    free(given);
}

int main(void) {
    lists(4, 0, "of the sum ");
    lists(5, 0, "of the sum ");
    lists(6, 1 << 20, "");
    lists(6, 16 << 20, "");
    lists(6, 256 << 20, "");
    lists(6, UINT32_MAX, "");
    tuples("u8", "numbers");
    tuples("e", "cases of an enum");
    for (size_t i = 0; i < sizeof SHAPES / sizeof *SHAPES; i++)
        text(&SHAPES[i]);
    functions();
    for (uint32_t count = 1000; count <= 64000; count *= 4)
        interfaces(count);
    return 0;
}
