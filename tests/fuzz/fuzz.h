/* What the harnesses share: bytes of the input, arrays that end at a page which no one may touch, facts that have to
 * hold, and lines of cases for tests/fuzz/compare.py.
 *
 * The library is no code that libFuzzer instruments. So a harness marks what the library answered, and libFuzzer keeps
 * the inputs that mark something new.
 */
#ifndef FUZZ_H
#define FUZZ_H
#include "witcall.h"
#include <stdarg.h>
#include <stdbool.h>
#include <stddef.h>
#include <stdint.h>
#include <stdio.h>
#include <stdlib.h>
#include <string.h>
#include <sys/mman.h>

#define BYTES(text) (const uint8_t *)(text), strlen(text)

/* ---- facts ---- */

/* Ends the program if something doesn't hold, so that libFuzzer keeps the input. */
#define HOLDS(fact) ((fact) ? (void)0 : fuzz_fails(__FILE__, __LINE__, #fact))

static inline void fuzz_fails(const char *file, int line, const char *fact) {
    fprintf(stderr, "%s:%d: it doesn't hold that %s\n", file, line, fact);
    abort();
}

/* ---- marks ---- */

#define MARKS 65536

__attribute__((section("__libfuzzer_extra_counters"))) static uint8_t marks[MARKS];

/* Marks what was seen, by two numbers. */
static inline void mark(uint32_t what, uint32_t more) {
    marks[(what * 2654435761u + more * 40503u) % MARKS] = 1;
}

static inline void mark_status(uint32_t what, witcall_status status) {
    mark(what, status.code * 1000 + status.number * 8 + status.step);
}

/* How many bits a number has, so that few marks tell of its size. */
static inline uint32_t bits(uint64_t number) {
    return number ? 64 - (uint32_t)__builtin_clzll(number) : 0;
}

static inline uint32_t hash(const uint8_t *bytes, size_t len) {
    uint32_t sum = 2166136261u;
    for (size_t i = 0; i < len; i++)
        sum = (sum ^ bytes[i]) * 16777619u;
    return sum;
}

/* ---- the input, from its front; behind its end there are zeros ---- */

typedef struct {
    const uint8_t *at;
    size_t len;
} input;

static inline uint32_t take(input *in, int bytes) {
    uint32_t number = 0;
    for (int i = 0; i < bytes; i++) {
        number |= in->len ? (uint32_t)*in->at << 8 * i : 0;
        if (in->len)
            in->at++, in->len--;
    }
    return number;
}

/* A number below another one. */
static inline uint32_t below(input *in, uint32_t most) {
    return take(in, most > 256 ? 2 : 1) % most;
}

/* So many bytes, or as many as there are. */
static inline input part(input *in, size_t len) {
    input front = {in->at, len < in->len ? len : in->len};
    in->at += front.len, in->len -= front.len;
    return front;
}

/* ---- arrays beside pages that no one may touch ---- */

#define PAGE 4096
#define FENCES 16
#define FENCED 262144

static uint8_t *fences[FENCES];

/* Room for an array that ends where such a page begins, or begins where one ends. Each number is one room. */
static inline void *fenced(int number, size_t len, bool at_end) {
    if (len > FENCED)
        abort();
    if (!fences[number]) {
        uint8_t *all = mmap(NULL, FENCED + 2 * PAGE, PROT_NONE, MAP_PRIVATE | MAP_ANONYMOUS, -1, 0);
        if (all == MAP_FAILED || mprotect(all + PAGE, FENCED, PROT_READ | PROT_WRITE) != 0)
            abort();
        fences[number] = all + PAGE;
    }
    return at_end ? fences[number] + FENCED - len : fences[number];
}

/* ---- lines of cases, if the program is asked for them ---- */

static inline FILE *cases(void) {
    static FILE *file;
    static bool was_asked;
    const char *name = getenv("WITCALL_CASES");
    if (!was_asked && name)
        file = fopen(name, "a");
    was_asked = true;
    return file;
}

static inline void put_words(const char *format, ...) {
    va_list arguments;
    va_start(arguments, format);
    if (cases())
        HOLDS(vfprintf(cases(), format, arguments) >= 0);
    va_end(arguments);
}

static inline void put_hex(const uint8_t *bytes, size_t len) {
    put_words("\"");
    for (size_t i = 0; cases() && i < len; i++)
        put_words("%02x", bytes[i]);
    put_words("\"");
}

static inline void put_status(witcall_status status) {
    put_words("[%u,%u,%u,%u]", status.code, status.number, status.step, status.count);
}

/* ---- statuses ---- */

static inline bool is_done(witcall_status status) {
    return status.code == WITCALL_DONE;
}

static inline bool is_refused(witcall_status status, uint32_t number) {
    return status.code == WITCALL_REFUSED && status.number == number;
}

/* Whether two statuses are the same. */
static inline bool is_same(witcall_status one, witcall_status other) {
    return memcmp(&one, &other, sizeof one) == 0;
}

/* A status is one that the header has, and its line is short and printable. */
static inline void check_any_status(witcall_status status) {
    uint8_t line[WITCALL_MAX_STATUS_LINE];
    HOLDS(status.code <= WITCALL_NO_MEMORY);
    HOLDS(status.code == WITCALL_DONE || status.number != 0);
    HOLDS(status.code == WITCALL_TRAP || status.step == 0);
    witcall_status told = witcall_status_line(status, line, sizeof line);
    HOLDS(is_done(told) && (told.count == 0) == is_done(status));
    for (uint32_t i = 0; i < told.count; i++)
        HOLDS(line[i] >= ' ' && line[i] <= '~');
}

/* The same of a call that never traps in WITCALL_PLACE. */
static inline void check_status(witcall_status status) {
    check_any_status(status);
    HOLDS((status.code == WITCALL_TRAP) == (status.step != WITCALL_PLACE));
}
#endif
