/* Each call of the library on small inputs, with each request for memory refused once, and with all from it on.
 *
 * usage: refused BINARY..      the binaries are of other tools, for witcall_open_module
 *
 * Such a call is out of memory: its code is WITCALL_NO_MEMORY, and its number 66, or 21, 35, 46 or 52 of an opening.
 * Or it does what it does with all memory. A document of witcall_explain may also have `no memory` among its faults. A
 * call leaves no block behind. If no request is refused, it is not out of memory.
 *
 * A line for each other answer has the call, the input, what it answered, and what it answers with all memory, between
 * tabs. The last line counts calls, requests, and answers of both kinds.
 */
#include "counted.h"
#include "witcall.h"
#include <stdarg.h>

#define BYTES(text) (const uint8_t *)(text), strlen(text)
#define ROOM 65536
#define MEMORY 4096
#define SLOTS 64
#define LIMIT 65536

/* ---- what calls are given, and what they write ---- */

typedef struct {
    const char *name;
    const uint8_t *bytes;
    size_t len, lengths[4], count;
} input;

static input in;
static witcall_package package, refused;
static uint32_t func;
static const char *json;
static uint8_t caller[MEMORY], callee[MEMORY];
static witcall_value flats[WITCALL_MAX_VALUES + 1], answer;
static size_t flats_len;
static witcall_block blocks[SLOTS];
static size_t blocks_len;
static witcall_call begun;

static struct {
    witcall_package package;
    uint8_t bytes[ROOM];
    uint8_t caller[MEMORY], callee[MEMORY];
    witcall_request requests[SLOTS];
    witcall_value values[WITCALL_MAX_VALUES];
    witcall_row_info row;
    witcall_member_info member;
    witcall_part parts[4];
    uint32_t kinds[WITCALL_MAX_VALUES];
    witcall_call call;
} out, whole;

typedef witcall_status call(void);

/* ---- openings, which write a handle ---- */

static witcall_status open_one(void) {
    return witcall_open(in.bytes, in.len, &out.package);
}

static witcall_status open_set(void) {
    return witcall_open_set(in.bytes, in.len, in.lengths, in.count, &out.package);
}

static witcall_status open_module(void) {
    return witcall_open_module(in.bytes, in.len, &out.package);
}

/* ---- calls of a package ---- */

#define WRITER(name, arguments) \
    static witcall_status name(void) { return witcall_##name arguments; }

WRITER(version, (out.bytes, ROOM))
WRITER(status_line, ((witcall_status){1, 72, 0, 0}, out.bytes, ROOM))
WRITER(line, (&refused, out.bytes, ROOM))
WRITER(explain, (in.bytes, in.len, in.lengths, in.count, out.bytes, ROOM))
WRITER(find, (&package, BYTES("a:b/c"), BYTES("f")))
WRITER(find_import, (&package, BYTES("a:b/w"), BYTES("h")))
WRITER(find_export, (&package, BYTES("a:b/w"), BYTES("h")))
WRITER(row, (&package, func, &out.row))
WRITER(member, (&package, func, 0, &out.member))
WRITER(row_name, (&package, func, out.bytes, ROOM))
WRITER(member_name, (&package, func, 0, out.bytes, ROOM))
WRITER(owner_name, (&package, WITCALL_INTERFACE, 0, out.bytes, ROOM))
WRITER(to_binary, (&package, out.bytes, ROOM))
WRITER(to_text, (&package, out.bytes, ROOM))
WRITER(describe, (&package, out.bytes, ROOM))
WRITER(parameters, (&package, func, out.parts, 4))
WRITER(result, (&package, func, out.parts, 4))
WRITER(lifted_params, (&package, func, out.kinds, WITCALL_MAX_VALUES))
WRITER(lifted_result, (&package, func, out.kinds, WITCALL_MAX_VALUES))
WRITER(lowered_params, (&package, func, out.kinds, WITCALL_MAX_VALUES))
WRITER(lowered_result, (&package, func, out.kinds, WITCALL_MAX_VALUES))

/* ---- halves ---- */

#define CALLER out.caller, MEMORY
#define CALLEE out.callee, MEMORY
#define VALUES out.values, WITCALL_MAX_VALUES
#define REQUESTS out.requests, SLOTS, LIMIT

WRITER(enter_requests, (&package, func, flats, flats_len, CALLER, REQUESTS))
WRITER(enter, (&package, func, flats, flats_len, CALLER, CALLEE, blocks, blocks_len, VALUES))
WRITER(leave_requests, (&package, func, &answer, 1, CALLEE, REQUESTS))
WRITER(leave, (&package, func, flats, flats_len, &answer, 1, CALLEE, CALLER, blocks, blocks_len, VALUES))
WRITER(begin, (&package, func, flats, flats_len, &out.call))
WRITER(call_enter_requests, (&package, &begun, CALLER, REQUESTS))
WRITER(call_enter, (&package, &begun, CALLER, CALLEE, blocks, blocks_len, VALUES))
WRITER(call_leave_requests, (&package, &begun, &answer, 1, CALLEE, REQUESTS))
WRITER(call_leave, (&package, &begun, &answer, 1, CALLEE, CALLER, blocks, blocks_len, VALUES))

/* ---- values as JSON ---- */

WRITER(json_requests, (&package, func, BYTES(json), REQUESTS))
WRITER(fill_json, (&package, func, BYTES(json), CALLEE, blocks, blocks_len, VALUES))
WRITER(json_fault, (&package, func, BYTES(json), out.bytes, ROOM))
WRITER(read_json, (&package, func, &answer, 1, CALLEE, out.bytes, ROOM, LIMIT))
WRITER(read_arguments_json, (&package, func, flats, flats_len, CALLER, out.bytes, ROOM, LIMIT))
WRITER(result_json_requests, (&package, func, BYTES(json), REQUESTS))
WRITER(fill_result_json, (&package, func, flats, flats_len, BYTES(json), CALLER, blocks, blocks_len, VALUES))

/* ---- a call with requests that are refused ---- */

static size_t calls, requests, told, wrong;

static const char *words_of(witcall_status status) {
    static char words[3][80];
    static int which;
    uint8_t line[WITCALL_MAX_STATUS_LINE];
    char *written = words[which = (which + 1) % 3];
    const witcall_status told = witcall_status_line(status, line, sizeof line);
    snprintf(written, sizeof words[0], "%.*s", (int)told.count, line);
    return status.code == WITCALL_DONE ? "done" : written;
}

static void tell(const char *name, const char *of, const char *answered, witcall_status before) {
    printf("%s\t%s\t%s\t%s\n", name, of, answered, words_of(before));
    wrong++;
}

static void begin_again(void) {
    memset(&out, 0x11, sizeof out);
    out.package = (witcall_package)WITCALL_NONE;
    memcpy(out.caller, caller, MEMORY), memcpy(out.callee, callee, MEMORY);
}

/* Makes a call, whose requests are counted, and some refused. */
static witcall_status make(call *one, size_t at, size_t from) {
    begin_again();
    heap.made = heap.refused = 0;
    heap.refused_at = at, heap.refused_from = from;
    heap.counts = true;
    const witcall_status status = one();
    heap.counts = false;
    return status;
}

/* Closes what a call opened. A handle that is out of memory has that in its line, and stands for no package. */
static void close_opened(const char *name, witcall_status status) {
    if (!out.package.at)
        return;
    uint8_t line[ROOM];
    const char *words = words_of(status);
    const witcall_status told = witcall_line(&out.package, line, sizeof line);
    if (status.code == WITCALL_NO_MEMORY && (told.count != strlen(words) || memcmp(line, words, told.count) != 0))
        tell(name, in.name, "another line", status);
    if (status.code == WITCALL_NO_MEMORY && witcall_row(&out.package, 0, &out.row).number != WITCALL_NOT_OPEN)
        tell(name, in.name, "an open handle", status);
    witcall_close(&out.package);
}

static bool is_opening(call *one) {
    return one == open_one || one == open_set || one == open_module;
}

/* Whether a status says that there was no memory. */
static bool is_out_of_memory(call *one, witcall_status status) {
    const uint32_t number = status.number;
    const bool is_step = number == 21 || number == 35 || number == 46 || number == 52;
    return status.code == WITCALL_NO_MEMORY && status.step == 0 && (number == 66 || (is_opening(one) && is_step));
}

/* What a call wrote, without its handle. */
static bool is_as_whole(void) {
    whole.package = out.package;
    return memcmp(&out, &whole, sizeof out) == 0;
}

/* A document of faults, in one line. */
static const char *document_of(const uint8_t *json, uint32_t len) {
    static char lines[2][ROOM];
    static int which;
    char *line = lines[which = !which];
    snprintf(line, ROOM, "%.*s", (int)len, json);
    for (char *end = line; (end = strchr(end, '\n'));)
        *end = ' ';
    return line;
}

/* A document may say that there was no memory, as a fault. */
static void judge_document(const char *of, witcall_status status, witcall_status before) {
    const char *found = document_of(out.bytes, status.count), *wanted = document_of(whole.bytes, before.count);
    if (strcmp(found, wanted) == 0 || strstr(found, " no memory\""))
        return;
    printf("witcall_explain\t%s\t%s\t%s\n", of, found, wanted);
    wrong++;
}

static void judge(const char *name, const char *of, call *one, witcall_status status, witcall_status before) {
    told += is_out_of_memory(one, status);
    if (is_out_of_memory(one, status))
        return;
    if (one == explain && status.code == WITCALL_DONE && before.code == WITCALL_DONE)
        judge_document(of, status, before);
    else if (memcmp(&status, &before, sizeof status) != 0)
        tell(name, of, words_of(status), before);
    else if (status.code == WITCALL_DONE && !is_as_whole())
        tell(name, of, "other bytes", before);
}

/* Tries a call with each of its requests refused, once and in runs. */
static void try(const char *name, const char *of, call *one) {
    size_t live = heap.live;
    const witcall_status before = make(one, 0, 0);
    const size_t made = heap.made;
    whole = out;
    calls++, requests += made;
    if (before.code == WITCALL_NO_MEMORY || before.number == 66)
        tell(name, of, "out of memory with all memory", before);
    close_opened(name, before);
    for (size_t i = 0; i < 2 * made; i++) {
        const size_t number = 1 + i / 2;
        const witcall_status status = make(one, i % 2 ? 0 : number, i % 2 ? number : 0);
        judge(name, of, one, status, before);
        close_opened(name, status);
        if (heap.live != live)
            tell(name, of, "a block is left", before);
        live = heap.live;
    }
}

#define TRY(of, one) try("witcall_" #one, of, one)

/* ---- inputs ---- */

#define GOOD \
    "package a:b@1.0.0; interface c { record r { a: u8, b: list<string> } variant v { p, q(r) } enum e { x, y } " \
    "f: func(x: r, y: option<v>) -> result<r, e>; } world w { import c; import h: func(x: u8); export h: func(x: u8); }"
#define USED "package d:e; interface y { record t { a: u16, a-label-of-more-than-twenty-three-bytes: string } }"
#define USING "package a:b; interface x { use d:e/y.{t}; f: func(p: list<t>) -> t; }"

/* Texts of packages, each input of one or more. */
static const char *const TEXTS[][4] = {
    {GOOD},
    {""},
    {"package a:b; interface c { f: func(x: u9); }"},
    {"package a:b; interface c { f: func(x: u8) }"},
    {"package a:b; interface c { type t = t; } interface c { g: func(); g: func(); }"},
    {"package a:b; interface c { use d:e/none.{t}; }"},
    {"package a:b; interface c { f: func(x: float32, y: string) -> own<c>; }"},
    {USED, USING},
    {USING, USED},
    {USED, "package a:b; interface x { use d:e/y.{s}; f: func(p: list<s>) -> z; }"},
    {USED, "package a:b; world w { import d:e/z; export f: func(); }"},
    {"package a:b; interface x { type t = u8; }", "package a:b; interface y { use x.{t, u}; }"},
    {"interface x { type t = u8; }", USED, USING},
};

static void explain_and_open(void) {
    if (in.count == 1)
        TRY(in.name, open_one);
    TRY(in.name, open_set);
    TRY(in.name, explain);
    witcall_package opened = WITCALL_NONE;
    const witcall_status status = witcall_open_set(in.bytes, in.len, in.lengths, in.count, &opened);
    if (status.code == WITCALL_DONE) {
        package = opened, func = 0;
        TRY(in.name, to_binary), TRY(in.name, to_text), TRY(in.name, describe), TRY(in.name, owner_name);
        TRY(in.name, row), TRY(in.name, row_name), TRY(in.name, member), TRY(in.name, member_name);
        TRY(in.name, find_import), TRY(in.name, find_export);
    } else {
        refused = opened;
        TRY(in.name, line);
    }
    witcall_close(&opened);
}

static void try_texts(void) {
    static char all[ROOM];
    for (size_t i = 0; i < sizeof TEXTS / sizeof *TEXTS; i++) {
        in = (input){.bytes = (uint8_t *)all};
        all[0] = 0;
        for (; in.count < 4 && TEXTS[i][in.count]; in.count++) {
            in.lengths[in.count] = strlen(TEXTS[i][in.count]);
            strcat(all, TEXTS[i][in.count]);
        }
        in.name = all, in.len = strlen(all);
        explain_and_open();
    }
}

/* A package in its binary, and binaries of other tools. */
static void try_binary(const char *path) {
    static uint8_t bytes[ROOM];
    FILE *file = fopen(path, "rb");
    if (!file)
        exit(2);
    const size_t len = fread(bytes, 1, sizeof bytes, file);
    fclose(file);
    in = (input){.name = path, .bytes = bytes, .len = len, .lengths = {len}, .count = 1};
    TRY(path, open_module), TRY(path, open_one), TRY(path, explain);
}

static void try_own_binary(void) {
    static uint8_t bytes[ROOM];
    package = (witcall_package)WITCALL_NONE;
    witcall_open(BYTES(GOOD), &package);
    const size_t len = witcall_to_binary(&package, bytes, sizeof bytes).count;
    in = (input){.name = "the binary of a package", .bytes = bytes, .len = len, .lengths = {len}, .count = 1};
    TRY(in.name, open_one), TRY(in.name, open_set), TRY(in.name, open_module), TRY(in.name, explain);
    witcall_close(&package);
}

/* ---- calls ---- */

/* Types of a parameter, each with a value as JSON, and what is none. */
static const struct {
    const char *types, *type, *value, *none;
} VALUES_OF[] = {
    {"", "u8", "7", "\"7\""},
    {"", "string", "\"h\\u00fc\\n\"", "[\"h\"]"},
    {"record r { a: u8, b: list<string> } variant v { p, q(r) }", "list<v>",
     "[\"p\",{\"q\":{\"a\":1,\"b\":[\"x\",\"\\u00e9yz\"]}}]", "[\"p\",{\"q\":{\"a\":1,\"b\":[\"x\",3]}}]"},
    {"flags g { k, l } enum e { x, y }", "tuple<option<string>, list<list<u16>>, result<g, e>, list<e>>",
     "[{\"some\":\"t\"},[[1,2],[],[3]],{\"ok\":[\"l\"]},[\"y\",\"x\"]]",
     "[{\"some\":\"t\"},[[1,2],[],[3]],{\"ok\":[\"m\"]},[]]"},
    {"record big { a: string, b: string, c: string, d: string, e: string, f: string, g: string, h: string, i: u8 }",
     "big",
     "{\"a\":\"1\",\"b\":\"2\",\"c\":\"3\",\"d\":\"4\",\"e\":\"5\",\"f\":\"6\",\"g\":\"7\",\"h\":\"8\",\"i\":9}",
     "{\"a\":\"1\",\"b\":\"2\",\"c\":\"3\",\"d\":\"4\",\"e\":\"5\",\"f\":\"6\",\"g\":\"7\",\"h\":\"8\"}"},
};

static const char *formatted(const char *format, ...) {
    static char texts[8][2048];
    static int which;
    va_list arguments;
    va_start(arguments, format);
    vsnprintf(texts[which = (which + 1) % 8], sizeof texts[0], format, arguments);
    va_end(arguments);
    return texts[which];
}

/* Grants blocks for the requests that a call wrote: they rise from the first kilobyte on, or fall from the last. */
static void grant(witcall_status asked, bool falls) {
    uint32_t at = falls ? MEMORY : 1024;
    blocks_len = asked.code == WITCALL_DONE ? asked.count : 0;
    for (size_t i = 0; i < blocks_len; i++) {
        const witcall_request r = out.requests[i];
        at = falls ? (at - r.size) / r.align * r.align : (at + r.align - 1) / r.align * r.align;
        blocks[i] = (witcall_block){r.align, r.size, at};
        at += falls ? 0 : r.size;
    }
}

/* A half whose blocks a call of requests asks for. */
static void try_half(const char *name, const char *of, call *ask, call *half) {
    for (int falls = 0; falls < 2; falls++) {
        grant(make(ask, 0, 0), falls);
        try(name, of, half);
    }
}

/* The calls with arguments or a result as JSON, also with a text that is none. */
static void try_json(const char *of, const char *arguments, const char *result, bool is_right) {
    json = arguments;
    TRY(of, json_requests), TRY(of, json_fault);
    try_half("witcall_fill_json", of, json_requests, fill_json);
    json = result;
    TRY(of, result_json_requests);
    if (is_right)
        try_half("witcall_fill_result_json", of, result_json_requests, fill_result_json);
}

/* Puts the arguments into the caller, and a result into the callee. Its area is at the memory's start. */
static void put_values(const char *arguments, const char *result) {
    memset(caller, 0, MEMORY), memset(callee, 0, MEMORY);
    json = arguments;
    grant(make(json_requests, 0, 0), false);
    const witcall_status filled = make(fill_json, 0, 0);
    memcpy(caller, out.callee, MEMORY);
    memcpy(flats, out.values, sizeof out.values);
    flats_len = filled.count;
    if (witcall_lowered_params(&package, func, out.kinds, WITCALL_MAX_VALUES).count > flats_len)
        flats[flats_len++] = (witcall_value){0, 0};
    json = result;
    grant(make(result_json_requests, 0, 0), false);
    const witcall_status answered = make(fill_result_json, 0, 0);
    memcpy(callee, out.caller, MEMORY);
    answer = answered.count ? out.values[0] : (witcall_value){0, 0};
}

static void try_halves(const char *of) {
    TRY(of, enter_requests), TRY(of, leave_requests), TRY(of, begin);
    TRY(of, read_json), TRY(of, read_arguments_json);
    try_half("witcall_enter", of, enter_requests, enter);
    try_half("witcall_leave", of, leave_requests, leave);
    witcall_begin(&package, func, flats, flats_len, &begun);
    TRY(of, call_enter_requests), TRY(of, call_leave_requests);
    try_half("witcall_call_enter", of, call_enter_requests, call_enter);
    try_half("witcall_call_leave", of, call_leave_requests, call_leave);
}

static void try_calls(void) {
    for (size_t i = 0; i < sizeof VALUES_OF / sizeof *VALUES_OF; i++) {
        const char *type = VALUES_OF[i].type;
        const char *text = formatted(
            "package a:b; interface c { %s f: func(x: %s) -> %s; }", VALUES_OF[i].types, type, type);
        package = (witcall_package)WITCALL_NONE;
        if (witcall_open(BYTES(text), &package).code != WITCALL_DONE)
            exit(2);
        func = find().count;
        TRY(type, find), TRY(type, parameters), TRY(type, result);
        TRY(type, lifted_params), TRY(type, lifted_result), TRY(type, lowered_params), TRY(type, lowered_result);
        const char *value = VALUES_OF[i].value, *none = VALUES_OF[i].none;
        const char *arguments = formatted("[%s]", value), *wrong_ones = formatted("[%s]", none);
        put_values(arguments, value);
        try_json(type, arguments, value, true);
        try_json(formatted("%s, of another type", type), wrong_ones, none, false);
        try_json(formatted("%s, no JSON", type), "[[[", "[[[", false);
        try_halves(type);
        witcall_close(&package);
    }
}

int main(int count, char **words) {
    setvbuf(stdout, NULL, _IOFBF, 1 << 16);
    TRY("", version), TRY("", status_line);
    try_texts();
    try_own_binary();
    for (int i = 1; i < count; i++)
        try_binary(words[i]);
    try_calls();
    printf("%zu calls, %zu requests: %zu answers of no memory, %zu wrong\n", calls, requests, told, wrong);
    return 0;
}
