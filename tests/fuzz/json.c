/* Calls with values as JSON over memories of a stranger. An input chooses types and builds a result of them (build.h),
 * whose JSON is then that of the arguments, of which the input may change some bytes; or it has a text, memories, core
 * values and JSON as they are. Then an allocator grants blocks, of which the input may change one.
 *
 * What has to hold: the memory of the result is as it was, and the other one outside the blocks. What is asked for is
 * asked for with any limit from its sum on, and is 76 with any less. The arguments are put into just these blocks. What
 * is put asks for the same blocks again, as the result does whose JSON it is, and has that JSON again, also as the
 * arguments of a guest's call. Then the JSON is put into the same memory as the result of such a call, and is read
 * there. A text that is refused is refused before anything is written. What is read as JSON is read with any limit from
 * what it asks for on, and is 76 with any less; into an array of any size, and nothing is written beyond that.
 * tests/fuzz/compare.py compares the rest with the models.
 */
#include "calls.h"

#define MOST_JSON 65536

typedef struct {
    witcall_package package;
    uint32_t func;
    const uint8_t *text; /* that of the package */
    size_t text_len;
    memory source, target;
    values answer;
    uint8_t *json;
    size_t json_len;
    witcall_status told; /* of the read of the answer */
    bool is_same_json;   /* whether the arguments are what was read */
    bool at_end;
} call;

/* ---- the calls of the library ---- */

static witcall_status ask(const void *any, witcall_request *requests, size_t len, uint64_t limit) {
    const call *c = any;
    witcall_package package = c->package;
    return witcall_json_requests(&package, c->func, c->json, c->json_len, requests, len, limit);
}

static witcall_status ask_back(const void *any, witcall_request *requests, size_t len, uint64_t limit) {
    const call *c = any;
    witcall_package package = c->package;
    const memory *m = &c->source;
    return witcall_leave_requests(&package, c->func, c->answer.at, c->answer.len, m->at, m->len, requests, len, limit);
}

static witcall_status fill(call *c, const asked *a, witcall_value *out, size_t room) {
    memory *m = &c->target;
    return witcall_fill_json(
        &c->package, c->func, c->json, c->json_len, m->at, m->len, a->blocks, a->granted, out, room);
}

static witcall_status read_json(call *c, const memory *m, values answer, uint8_t *text, size_t len) {
    return witcall_read_json(&c->package, c->func, answer.at, answer.len, m->at, m->len, text, len, LIMIT);
}

/* ---- what is asked for ---- */

static bool is_no_json(witcall_status status) {
    return is_refused(status, WITCALL_BAD_JSON) || is_refused(status, WITCALL_NOT_THIS_TYPE);
}

/* Of a text that is no arguments a line tells where, of arguments none, and what is no JSON has none either. */
static void check_fault(call *c, witcall_status asked) {
    static uint8_t line[MOST_JSON + 4096];
    witcall_status counted = witcall_json_fault(&c->package, c->func, c->json, c->json_len, NULL, 0);
    check_any_status(counted);
    if (is_refused(asked, WITCALL_BAD_JSON)) {
        HOLDS(is_same(counted, asked));
        return;
    }
    if (!is_refused(asked, WITCALL_NOT_THIS_TYPE)) {
        HOLDS(is_done(counted) && counted.count == 0);
        return;
    }
    HOLDS(is_refused(counted, WITCALL_NO_ROOM) && counted.count > 0 && counted.count <= sizeof line);
    witcall_status told = witcall_json_fault(&c->package, c->func, c->json, c->json_len, line, counted.count);
    HOLDS(is_done(told) && told.count == counted.count);
    HOLDS(line[0] == '[' || (line[0] >= 'a' && line[0] <= 'z'));
    HOLDS(!memchr(line, '\n', told.count));
    mark(24, bits(told.count));
}

/* Whether a list has more bytes than one may have. */
static bool is_too_large(witcall_status status) {
    return status.code == WITCALL_TRAP && status.number == 4 && status.step == WITCALL_PLACE;
}

static asked check_ask(call *c) {
    asked a = ask_for(c, ask, c->at_end);
    check_any_status(a.status);
    check_fault(c, a.status);
    mark_status(20, a.status);
    mark(21, is_done(a.status) && a.status.count < 32 ? a.status.count : 32 + bits(a.status.count));
    if (is_done(a.status)) {
        check_requests(c, ask, &a, c->at_end);
    } else {
        const bool is_above = is_refused(a.status, WITCALL_ABOVE_LIMIT);
        HOLDS(is_above || is_no_json(a.status) || is_too_large(a.status));
        HOLDS(is_same(ask(c, NULL, 0, is_above ? LIMIT / 2 : UINT64_MAX), a.status));
    }
    return a;
}

/* ---- what is put ---- */

/* How many blocks the arguments ask for in front of those of their values. */
static size_t record_blocks(call *c) {
    builder b = {.package = &c->package};
    uint32_t flat = 0;
    const witcall_row_info row = row_of(&b, c->func);
    for (uint32_t i = 0; i < row.members && flat <= 16; i++)
        flat += flat_count(&b, member_of(&b, c->func, i).type);
    return flat > 16;
}

/* Reads a value of a call as JSON, with a limit. */
typedef witcall_status reading(call *c, const memory *m, values flats, uint8_t *text, size_t len, uint64_t limit);

static witcall_status read_result(call *c, const memory *m, values flats, uint8_t *text, size_t len, uint64_t limit) {
    return witcall_read_json(&c->package, c->func, flats.at, flats.len, m->at, m->len, text, len, limit);
}

static witcall_status
read_arguments(call *c, const memory *m, values flats, uint8_t *text, size_t len, uint64_t limit) {
    return witcall_read_arguments_json(&c->package, c->func, flats.at, flats.len, m->at, m->len, text, len, limit);
}

/* A value that asks for so many bytes and has this text is read with any limit from these on, and not with less; and
 * with any room from the text's length on. What there is no room for is not written. */
static void check_reading(
    call *c, reading *read, const memory *m, values flats, uint64_t sum, const uint8_t *text, size_t len) {
    const uint32_t number = hash(text, len);
    const size_t room = number % (len + 2);
    uint8_t *few = fenced(10, room, c->at_end);
    witcall_status told = read(c, m, flats, few, room, number % 3 ? sum : UINT64_MAX);
    HOLDS(room < len ? is_refused(told, WITCALL_NO_ROOM) : is_done(told));
    HOLDS(told.count == len && (room < len || memcmp(few, text, len) == 0));
    if (sum > 0) {
        HOLDS(is_refused(read(c, m, flats, few, room, sum - 1), WITCALL_ABOVE_LIMIT));
        HOLDS(is_refused(read(c, m, flats, few, room, number % sum), WITCALL_ABOVE_LIMIT));
    }
    mark(28, bits(sum) * 32 + bits(len));
}

/* What was put is read as the arguments that a guest passes: as the same JSON if the library wrote that, and else as
 * JSON that asks for the same blocks. */
static void check_received(call *c, const asked *a, values given) {
    static uint8_t text[MOST_JSON], held[MEMORY];
    memory *m = &c->target;
    memcpy(held, m->at, m->len);
    witcall_status told = witcall_read_arguments_json(
        &c->package, c->func, given.at, given.len, m->at, m->len, text, sizeof text, LIMIT);
    HOLDS(memcmp(held, m->at, m->len) == 0);
    mark_status(25, told);
    if (is_refused(told, WITCALL_NO_ROOM))
        return;
    HOLDS(is_done(told) && told.count >= 2);
    HOLDS(is_same(witcall_json_requests(&c->package, c->func, text, told.count, NULL, 0, LIMIT), a->status));
    if (c->is_same_json)
        HOLDS(told.count == c->json_len && memcmp(text, c->json, told.count) == 0);
    check_reading(c, read_arguments, m, given, a->sum, text, told.count);
}

/* What was put asks for the same blocks, as the arguments of a call of its own. */
static void check_copy(call *c, const asked *a, const witcall_value *out, size_t count) {
    static witcall_request again[SLOTS];
    witcall_value given[WITCALL_MAX_VALUES + 1];
    builder b = {.package = &c->package};
    memcpy(given, out, count * sizeof *out);
    if (has_area(&b, c->func))
        given[count++] = (witcall_value){0, 0};
    witcall_status status = witcall_enter_requests(
        &c->package, c->func, given, count, c->target.at, c->target.len, again, SLOTS, LIMIT);
    HOLDS(is_same(status, a->status));
    HOLDS(status.count == 0 || memcmp(again, a->requests, status.count * sizeof *again) == 0);
    check_received(c, a, (values){given, count});
}

/* What was put is the result whose JSON it is: it asks for the same blocks, and if it lies as a result does, it has the
 * same JSON. */
static void check_back(call *c, const asked *a, witcall_value *out, size_t count) {
    static witcall_request back[SLOTS];
    static uint8_t text[MOST_JSON];
    const size_t before = record_blocks(c);
    witcall_status status = ask_back(c, back, SLOTS, LIMIT);
    HOLDS(is_done(status) && status.count + before == a->status.count);
    HOLDS(status.count == 0 || memcmp(back, a->requests + before, status.count * sizeof *back) == 0);
    if (count != 1)
        return;
    witcall_status told = read_json(c, &c->target, (values){out, 1}, text, c->json_len);
    HOLDS(is_done(told) && told.count == c->json_len && memcmp(text, c->json, c->json_len) == 0);
}

/* A call with too little room is refused before its blocks are tested, and after the text. */
static void check_room(call *c, const asked *a) {
    witcall_value *few = fenced(8, (WITCALL_MAX_VALUES - 1) * sizeof *few, c->at_end);
    witcall_status status = fill(c, a, few, WITCALL_MAX_VALUES - 1);
    if (is_no_json(a->status))
        HOLDS(is_same(status, a->status));
    else
        HOLDS(is_refused(status, WITCALL_NO_ROOM) && status.count == WITCALL_MAX_VALUES);
    check_written(&c->target, a, (witcall_block){1, 0, 0}, true);
}

static bool is_full(witcall_status status) {
    return status.code == WITCALL_TRAP && status.number == 6 && status.step == WITCALL_PLACE;
}

static void check_outcome(const asked *a, witcall_status status) {
    const bool is_told = is_done(a->status), is_whole = is_told && a->granted == a->status.count;
    HOLDS(is_whole || !is_done(status));
    if (is_no_json(a->status))
        HOLDS(is_same(status, a->status));
    else if (is_whole && !a->is_changed)
        HOLDS(is_done(status));
    else if (!a->is_changed)
        HOLDS(is_full(status) || (is_too_large(status) && !is_told));
    else
        HOLDS(!is_no_json(status));
}

static witcall_status check_fill(call *c, const asked *a, witcall_value *out) {
    uint32_t kinds[WITCALL_MAX_VALUES];
    witcall_status signature = witcall_lifted_params(&c->package, c->func, kinds, WITCALL_MAX_VALUES);
    HOLDS(is_done(signature));
    check_room(c, a);
    memset(out, 0xee, WITCALL_MAX_VALUES * sizeof *out);
    witcall_status status = fill(c, a, out, WITCALL_MAX_VALUES);
    check_any_status(status);
    mark_status(22, status);
    check_written(&c->target, a, (witcall_block){1, 0, 0}, status.code == WITCALL_REFUSED && status.number != 73);
    HOLDS(!is_done(status) || status.count == signature.count);
    check_handed(out, kinds, is_done(status) ? status.count : 0);
    check_outcome(a, status);
    if (is_done(status))
        check_copy(c, a, out, status.count);
    if (is_done(status) && c->is_same_json)
        check_back(c, a, out, status.count);
    return status;
}

/* ---- a result that is put ---- */

static witcall_status ask_result(const void *any, witcall_request *requests, size_t len, uint64_t limit) {
    const call *c = any;
    witcall_package package = c->package;
    return witcall_result_json_requests(&package, c->func, c->json, c->json_len, requests, len, limit);
}

/* The core values of a guest's call, whose arguments are zeros, and its return area. */
static values call_of_guest(call *c, input *in, witcall_block *area) {
    uint32_t kinds[WITCALL_MAX_VALUES];
    uint64_t bits_of[WITCALL_MAX_VALUES] = {0};
    builder b = {.package = &c->package};
    const witcall_type_info result = result_of(&b, c->func);
    witcall_status params = witcall_lowered_params(&c->package, c->func, kinds, WITCALL_MAX_VALUES);
    HOLDS(is_done(params));
    *area = (witcall_block){1, 0, 0};
    if (has_area(&b, c->func)) {
        const uint32_t place = below(in, MEMORY);
        *area = (witcall_block){1, result.size, place % 4 ? place / result.align * result.align : place};
        bits_of[params.count - 1] = area->at;
    }
    return new_values(2, bits_of, kinds, params.count, c->at_end);
}

/* The result is read where it was put, as the same JSON. */
static void check_answered(call *c, witcall_block area, const witcall_value *out, size_t count) {
    static uint8_t text[MOST_JSON];
    witcall_value answer = {0, area.at};
    builder b = {.package = &c->package};
    const bool is_stored = has_area(&b, c->func);
    HOLDS(count == (is_stored || !c->json_len ? 0 : 1));
    const values answered = {is_stored ? &answer : (witcall_value *)out, is_stored ? 1 : count};
    witcall_status told = read_json(c, &c->target, answered, text, c->json_len);
    HOLDS(is_done(told) && told.count == c->json_len && memcmp(text, c->json, c->json_len) == 0);
}

/* The JSON is put into the memory as the result of a guest's call. If it was read of an answer, it asks for the blocks
 * that the answer does. */
static void check_served(call *c, input *in, witcall_value *out) {
    static witcall_request back[SLOTS];
    witcall_block area;
    memory *m = &c->target;
    memcpy(m->before, m->at, m->len);
    values flats = call_of_guest(c, in, &area);
    asked a = ask_for(c, ask_result, c->at_end);
    check_any_status(a.status);
    mark_status(26, a.status);
    if (is_done(a.status))
        check_requests(c, ask_result, &a, c->at_end);
    if (c->is_same_json) {
        HOLDS(is_same(ask_back(c, back, SLOTS, LIMIT), a.status));
        HOLDS(memcmp(back, a.requests, a.status.count * sizeof *back) == 0);
    }
    grant(&a, in, m->len, area, c->at_end);
    memset(out, 0xee, WITCALL_MAX_VALUES * sizeof *out);
    witcall_status status = witcall_fill_result_json(
        &c->package, c->func, flats.at, flats.len, c->json, c->json_len, m->at, m->len, a.blocks, a.granted, out,
        WITCALL_MAX_VALUES);
    check_any_status(status);
    mark_status(27, status);
    check_written(m, &a, area, status.code == WITCALL_REFUSED && status.number != WITCALL_OTHER_BLOCK);
    HOLDS(is_done(a.status) || !is_done(status));
    if (is_no_json(a.status))
        HOLDS(is_same(status, a.status));
    if (is_done(status) && c->is_same_json)
        check_answered(c, area, out, status.count);
}

/* ---- cases ---- */

static void put_case(call *c, const asked *a, witcall_status status, const witcall_value *out) {
    put_words("{\"of\":\"json\",\"text\":"), put_hex(c->text, c->text_len);
    if (!is_named(&c->package, c->func)) {
        put_words("}\n");
        return;
    }
    put_words(",\"source\":"), put_hex(c->source.at, c->source.len);
    put_flats("answer", c->answer);
    put_words(",\"told\":"), put_status(c->told);
    put_words(",\"json\":"), put_hex(c->json, c->json_len);
    put_words(",\"is_read\":%s", c->is_same_json ? "true" : "false");
    put_words(",\"target\":"), put_hex(c->target.before, c->target.len);
    put_words(",\"limit\":%d,\"asked\":", LIMIT), put_status(a->status);
    put_blocks(a);
    put_words(",\"filled\":"), put_status(status);
    put_flats("values", (values){(witcall_value *)out, is_done(status) ? status.count : 0});
    put_words(",\"after\":"), put_hex(c->target.at, c->target.len);
    put_words("}\n");
}

/* ---- an input ---- */

/* A package whose function has parameters, and their tuple as its result. */
static void make_same(input *in, char *text, size_t room) {
    static const uint32_t COUNTS[] = {1, 1, 1, 2, 2, 3, 6, 20};
    types t = {.in = in};
    char params[4096] = "", fields[4096] = "";
    const uint32_t count = COUNTS[below(in, 8)];
    for (uint32_t i = 0; i < count; i++) {
        char type[2048] = "", label[8];
        append_type(&t, type, 0);
        snprintf(label, sizeof label, "%s%c: ", i ? ", " : "", 'a' + i);
        append(params, label), append(params, type);
        append(fields, i ? ", " : ""), append(fields, type);
    }
    int len = snprintf(
        text, room, "package a:b;\ninterface c {\n%s  f: func(%s) -> tuple<%s>;\n}\n", t.declared, params, fields);
    HOLDS((size_t)len < room);
}

/* Reads the answer as JSON, which is that of the arguments then. */
static void read_answer(call *c) {
    witcall_status counted = read_json(c, &c->source, c->answer, NULL, 0);
    c->told = counted;
    check_any_status(counted);
    mark_status(23, counted);
    if (!is_refused(counted, WITCALL_NO_ROOM) || counted.count > MOST_JSON)
        return;
    c->json_len = counted.count;
    c->json = fenced(9, c->json_len, c->at_end);
    c->told = read_json(c, &c->source, c->answer, c->json, c->json_len);
    HOLDS(is_done(c->told) && c->told.count == counted.count);
    c->is_same_json = true;
}

/* The answer is read with each limit and into arrays of each size. */
static void check_answer(call *c) {
    static witcall_request back[SLOTS];
    const witcall_status status = ask_back(c, back, SLOTS, LIMIT);
    uint64_t sum = 0;
    HOLDS(is_done(status));
    for (size_t i = 0; i < status.count; i++)
        sum += back[i].size;
    check_reading(c, read_result, &c->source, c->answer, sum, c->json, c->json_len);
}

/* JSON as the input has it: a length and its bytes. */
static void take_json(call *c, input *in) {
    input bytes = part(in, take(in, 2));
    c->json_len = bytes.len;
    c->json = fenced(9, bytes.len, c->at_end);
    if (bytes.len)
        memcpy(c->json, bytes.at, bytes.len);
    c->is_same_json = false;
}

/* Changes bytes of the JSON, if the input says so. */
static void change_json(call *c, input *in) {
    static const char PIECES[] = "\"\"[]{},:-0123456789eE.+tfn\\u \n\177\200\303";
    const uint32_t how = take(in, 1);
    for (uint32_t i = 0; how >= 128 && i <= how % 4 && c->json_len > 0; i++) {
        c->json[take(in, 2) % c->json_len] = PIECES[below(in, sizeof PIECES - 1)];
        c->is_same_json = false;
    }
}

/* An input whose first byte is even: types and a result that it chooses. */
static bool is_built(call *c, input *in) {
    static char text[16384];
    make_same(in, text, sizeof text);
    c->text = (const uint8_t *)text, c->text_len = strlen(text);
    HOLDS(is_done(witcall_open(c->text, c->text_len, &c->package)));
    witcall_status found = witcall_find(&c->package, BYTES("a:b/c"), BYTES("f"));
    HOLDS(is_done(found));
    const size_t len = below(in, MEMORY);
    c->func = found.count;
    c->source = new_memory(0, NULL, len, c->at_end);
    c->target = new_memory(1, NULL, below(in, MEMORY), c->at_end);
    builder b = {&c->package, in, c->source.at, (uint32_t)len, below(in, 64)};
    c->answer = make_answer(&b, found.count, c->at_end);
    read_answer(c);
    if (c->is_same_json)
        check_answer(c);
    else
        take_json(c, in);
    change_json(c, in);
    return true;
}

/* An input whose first byte is odd: a text, the index of a function, memories, core values and JSON as they are. */
static bool is_read(call *c, input *in) {
    input text = part(in, take(in, 2));
    c->text = text.at, c->text_len = text.len;
    if (!is_done(witcall_open(text.at, text.len, &c->package)))
        return false;
    if (!has_function(&c->package, take(in, 1), &c->func))
        return false;
    c->source = read_memory(0, in, c->at_end);
    c->target = read_memory(1, in, c->at_end);
    c->answer = read_values(3, in, c->at_end);
    read_answer(c);
    if (c->is_same_json)
        check_answer(c);
    take_json(c, in);
    return true;
}

static void check(call *c, input *in) {
    witcall_value *out = fenced(7, WITCALL_MAX_VALUES * sizeof *out, c->at_end);
    memcpy(c->source.before, c->source.at, c->source.len);
    memcpy(c->target.before, c->target.at, c->target.len);
    asked a = check_ask(c);
    grant(&a, in, c->target.len, (witcall_block){1, 0, 0}, c->at_end);
    witcall_status status = check_fill(c, &a, out);
    HOLDS(memcmp(c->source.at, c->source.before, c->source.len) == 0);
    mark_types(&c->package, status.code * 100 + status.number);
    put_case(c, &a, status, out);
    check_served(c, in, out);
}

int LLVMFuzzerTestOneInput(const uint8_t *data, size_t len) {
    static call c;
    input in = {data, len};
    const uint32_t first = take(&in, 1);
    memset(&c, 0, sizeof c);
    c.at_end = !(first & 2);
    const bool is_made = first & 1 ? is_read(&c, &in) : is_built(&c, &in);
    if (is_made)
        check(&c, &in);
    witcall_close(&c.package);
    return is_made ? 0 : -1;
}
