/* What calls of the library take for the bytes that they are given.
 *
 * usage: amplified        reads lines `CALL FILE OTHER LIMIT`, with tabs between
 *
 * FILE is a text, a binary, or the texts of a set one after another. OTHER is the file of a set's lengths, of JSON, or
 * of a memory, whose first eight bytes are the address and the length of the argument or the result; or `-`. The
 * function is f of a:b/c. It prints a line for each: the code and the number of the status, the bytes given, the most
 * bytes that the library held, and the status's count. What a call is given is said at its function. Under callgrind
 * with --collect-atstart=no each call's instructions are dumped in turn.
 */
#include "counted.h"
#include "witcall.h"
#include <valgrind/callgrind.h>

typedef struct {
    uint8_t *at;
    size_t len;
} bytes;

typedef struct {
    bytes file, other;
    uint64_t limit;
} given;

typedef struct {
    witcall_status status;
    size_t base, most;
} taken;

static void fail(const char *why) {
    fprintf(stderr, "amplified: %s\n", why);
    exit(2);
}

static bytes read_file(const char *path) {
    bytes all = {NULL, 0};
    FILE *file = strcmp(path, "-") ? fopen(path, "rb") : NULL;
    if (!file)
        return all;
    fseek(file, 0, SEEK_END);
    all.len = (size_t)ftell(file);
    rewind(file);
    all.at = malloc(all.len + 1);
    if (!all.at || fread(all.at, 1, all.len, file) != all.len)
        fail("a file can't be read");
    fclose(file);
    return all;
}

/* The lengths of a set, of 8 bytes each. */
static const size_t *lengths_of(const given *g) {
    return (const size_t *)g->other.at;
}

static size_t before;

static void begin(void) {
    before = heap.peak = heap.bytes;
    CALLGRIND_TOGGLE_COLLECT;
}

static taken end(witcall_status status, size_t base) {
    CALLGRIND_TOGGLE_COLLECT;
    CALLGRIND_DUMP_STATS;
    return (taken){status, base, heap.peak - before};
}

#define MEASURED(call, base) (begin(), end(call, base))

/* ---- openings: the bytes of the inputs and of their lengths; of a module also those of its package's text */

static taken open_one(const given *g) {
    witcall_package package = WITCALL_NONE;
    const taken t = MEASURED(witcall_open(g->file.at, g->file.len, &package), g->file.len);
    witcall_close(&package);
    return t;
}

static taken open_set(const given *g) {
    witcall_package package = WITCALL_NONE;
    const size_t *lengths = lengths_of(g), count = g->other.len / sizeof *lengths;
    const taken t = MEASURED(
        witcall_open_set(g->file.at, g->file.len, lengths, count, &package), g->file.len + g->other.len);
    witcall_close(&package);
    return t;
}

static taken open_module(const given *g) {
    witcall_package package = WITCALL_NONE;
    taken t = MEASURED(witcall_open_module(g->file.at, g->file.len, &package), g->file.len);
    if (t.status.code == WITCALL_DONE)
        t.base += witcall_to_text(&package, NULL, 0).count;
    witcall_close(&package);
    return t;
}

static taken explain(const given *g) {
    const size_t *lengths = lengths_of(g), count = g->other.len / sizeof *lengths;
    return MEASURED(
        witcall_explain(g->file.at, g->file.len, lengths, count, NULL, 0), g->file.len + g->other.len);
}

/* ---- a package that was opened or refused: the bytes of its text */

static taken of_package(const given *g, int which) {
    witcall_package package = WITCALL_NONE;
    witcall_open(g->file.at, g->file.len, &package);
    begin();
    witcall_status status;
    switch (which) {
        case 0: status = witcall_line(&package, NULL, 0); break;
        case 1: status = witcall_to_binary(&package, NULL, 0); break;
        case 2: status = witcall_to_text(&package, NULL, 0); break;
        default: status = witcall_describe(&package, NULL, 0);
    }
    const taken t = end(status, g->file.len);
    witcall_close(&package);
    return t;
}

static taken line(const given *g) { return of_package(g, 0); }
static taken to_binary(const given *g) { return of_package(g, 1); }
static taken to_text(const given *g) { return of_package(g, 2); }
static taken describe(const given *g) { return of_package(g, 3); }

/* ---- calls */

static witcall_package package;
static uint32_t func;
static witcall_request *requests;
static witcall_block *blocks;
static size_t requests_len, blocks_len, granted;

static void open_function(const given *g) {
    package = (witcall_package)WITCALL_NONE;
    if (witcall_open(g->file.at, g->file.len, &package).code != WITCALL_DONE)
        fail("a text is refused");
    func = witcall_find(&package, (const uint8_t *)"a:b/c", 5, (const uint8_t *)"f", 1).count;
}

/* The blocks that were asked for, from the end of a memory down. */
static bytes grant(witcall_status asked) {
    blocks_len = asked.code == WITCALL_DONE ? asked.count : 0;
    granted = 16;
    for (size_t i = 0; i < blocks_len; i++)
        granted += requests[i].size + 8;
    size_t at = granted;
    blocks = malloc((blocks_len + 1) * sizeof *blocks);
    bytes memory = {calloc(granted, 1), granted};
    if (!blocks || !memory.at)
        fail("no memory");
    for (size_t i = 0; i < blocks_len; i++) {
        at = (at - requests[i].size) / requests[i].align * requests[i].align;
        blocks[i] = (witcall_block){requests[i].align, requests[i].size, (uint32_t)at};
    }
    return memory;
}

static void make_requests(witcall_status counted) {
    requests_len = counted.code == WITCALL_DONE ? counted.count : 0;
    requests = malloc((requests_len + 1) * sizeof *requests);
    if (!requests)
        fail("no memory");
}

static void end_function(bytes memory) {
    free(memory.at), free(blocks), free(requests);
    blocks = NULL, requests = NULL;
    witcall_close(&package);
}

/* JSON of arguments, and of a result: the bytes of the text. */
static taken json_requests(const given *g) {
    open_function(g);
    const taken t = MEASURED(
        witcall_json_requests(&package, func, g->other.at, g->other.len, NULL, 0, g->limit), g->other.len);
    witcall_close(&package);
    return t;
}

static taken result_json_requests(const given *g) {
    open_function(g);
    const uint8_t *json = g->other.at + 1;
    const size_t len = g->other.len - 2;
    const taken t = MEASURED(witcall_result_json_requests(&package, func, json, len, NULL, 0, g->limit), len);
    witcall_close(&package);
    return t;
}

static taken json_fault(const given *g) {
    open_function(g);
    const taken t = MEASURED(witcall_json_fault(&package, func, g->other.at, g->other.len, NULL, 0), g->other.len);
    witcall_close(&package);
    return t;
}

static taken fill_json(const given *g) {
    witcall_value handed[WITCALL_MAX_VALUES];
    open_function(g);
    make_requests(witcall_json_requests(&package, func, g->other.at, g->other.len, NULL, 0, UINT64_MAX));
    const bytes memory = grant(
        witcall_json_requests(&package, func, g->other.at, g->other.len, requests, requests_len, UINT64_MAX));
    const taken t = MEASURED(
        witcall_fill_json(
            &package, func, g->other.at, g->other.len, memory.at, memory.len, blocks, blocks_len, handed,
            WITCALL_MAX_VALUES),
        g->other.len);
    end_function(memory);
    return t;
}

/* The return area is at the start of the memory, in front of the blocks. */
static taken fill_result_json(const given *g) {
    const uint8_t *json = g->other.at + 1;
    const size_t len = g->other.len - 2;
    witcall_value back[WITCALL_MAX_VALUES];
    const witcall_value area[] = {{0, 0}, {0, 0}, {0, 0}};
    open_function(g);
    make_requests(witcall_result_json_requests(&package, func, json, len, NULL, 0, UINT64_MAX));
    const bytes memory = grant(
        witcall_result_json_requests(&package, func, json, len, requests, requests_len, UINT64_MAX));
    const taken t = MEASURED(
        witcall_fill_result_json(
            &package, func, area, 3, json, len, memory.at, memory.len, blocks, blocks_len, back, WITCALL_MAX_VALUES),
        len);
    end_function(memory);
    return t;
}

/* ---- memories */

static void flats_of(const given *g, witcall_value *flats) {
    uint32_t words[2];
    memcpy(words, g->other.at, sizeof words);
    flats[0] = (witcall_value){0, words[0]}, flats[1] = (witcall_value){0, words[1]}, flats[2] = (witcall_value){0, 0};
}

/* A result, and arguments, read as JSON: the bytes of the text. */
static taken read_json(const given *g) {
    const witcall_value answer = {0, 0};
    open_function(g);
    taken t = MEASURED(
        witcall_read_json(&package, func, &answer, 1, g->other.at, g->other.len, NULL, 0, g->limit), g->other.len);
    t.base = t.status.number == WITCALL_NO_ROOM ? t.status.count : g->limit;
    witcall_close(&package);
    return t;
}

static taken read_arguments_json(const given *g) {
    witcall_value flats[3];
    flats_of(g, flats);
    open_function(g);
    taken t = MEASURED(
        witcall_read_arguments_json(&package, func, flats, 3, g->other.at, g->other.len, NULL, 0, g->limit),
        g->other.len);
    t.base = t.status.number == WITCALL_NO_ROOM ? t.status.count : g->limit;
    witcall_close(&package);
    return t;
}

/* What is asked for: the limit. */
static taken enter_requests(const given *g) {
    witcall_value flats[3];
    flats_of(g, flats);
    open_function(g);
    const taken t = MEASURED(
        witcall_enter_requests(&package, func, flats, 3, g->other.at, g->other.len, NULL, 0, g->limit), g->limit);
    witcall_close(&package);
    return t;
}

static taken leave_requests(const given *g) {
    const witcall_value answer = {0, 0};
    open_function(g);
    const taken t = MEASURED(
        witcall_leave_requests(&package, func, &answer, 1, g->other.at, g->other.len, NULL, 0, g->limit), g->limit);
    witcall_close(&package);
    return t;
}

/* The halves: the bytes of both memories. */
static taken enter(const given *g) {
    witcall_value flats[3], handed[WITCALL_MAX_VALUES];
    const bytes *m = &g->other;
    flats_of(g, flats);
    open_function(g);
    make_requests(witcall_enter_requests(&package, func, flats, 3, m->at, m->len, NULL, 0, g->limit));
    const bytes memory = grant(
        witcall_enter_requests(&package, func, flats, 3, m->at, m->len, requests, requests_len, g->limit));
    const taken t = MEASURED(
        witcall_enter(
            &package, func, flats, 3, m->at, m->len, memory.at, memory.len, blocks, blocks_len, handed,
            WITCALL_MAX_VALUES),
        m->len + memory.len);
    end_function(memory);
    return t;
}

static taken leave(const given *g) {
    witcall_value flats[3], back[WITCALL_MAX_VALUES];
    const witcall_value answer = {0, 0};
    const bytes *m = &g->other;
    flats_of(g, flats);
    open_function(g);
    make_requests(witcall_leave_requests(&package, func, &answer, 1, m->at, m->len, NULL, 0, g->limit));
    const bytes memory = grant(
        witcall_leave_requests(&package, func, &answer, 1, m->at, m->len, requests, requests_len, g->limit));
    const taken t = MEASURED(
        witcall_leave(
            &package, func, flats, 3, &answer, 1, m->at, m->len, memory.at, memory.len, blocks, blocks_len, back,
            WITCALL_MAX_VALUES),
        m->len + memory.len);
    end_function(memory);
    return t;
}

#define NAMED(call) {#call, call}

static const struct {
    const char *name;
    taken (*call)(const given *);
} CALLS[] = {
    {"open", open_one}, NAMED(open_set), NAMED(open_module), NAMED(explain), NAMED(line), NAMED(to_binary),
    NAMED(to_text), NAMED(describe), NAMED(json_requests), NAMED(fill_json), NAMED(json_fault),
    NAMED(result_json_requests), NAMED(fill_result_json), NAMED(read_json), NAMED(read_arguments_json),
    NAMED(enter_requests), NAMED(leave_requests), NAMED(enter), NAMED(leave),
};

static taken make(const char *name, const given *g) {
    for (size_t i = 0; i < sizeof CALLS / sizeof *CALLS; i++)
        if (strcmp(CALLS[i].name, name) == 0)
            return CALLS[i].call(g);
    fail(name);
    return (taken){.base = 0};
}

int main(void) {
    char name[64], file[512], other[512];
    given g;
    while (scanf("%63s %511s %511s %lu", name, file, other, &g.limit) == 4) {
        g.file = read_file(file), g.other = read_file(other);
        const taken t = make(name, &g);
        printf("%u %u %zu %zu %u\n", t.status.code, t.status.number, t.base, t.most, t.status.count);
        free(g.file.at), free(g.other.at);
    }
    return 0;
}
