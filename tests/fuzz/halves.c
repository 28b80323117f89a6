/* The halves of calls over memories of a stranger. An input chooses a function's types and builds values of them
 * (build.h), or has a text, memories and core values as they are. Then an allocator grants blocks, of which the input
 * may change one.
 *
 * What has to hold: the memory that is read is as it was, and the other one outside the blocks. What is asked for is
 * asked for with any limit from its sum on, and is 76 with any less. The half is done with just these blocks. What it
 * put asks for the same blocks again. A call that was begun does the same. An answer is read as JSON just if its
 * requests are told. tests/fuzz/compare.py compares the rest with the models.
 */
#include "calls.h"

/* A half: of the arguments, or of the answer. */
typedef struct {
    witcall_package *package;
    uint32_t func;
    bool leaves, is_begun, at_end;
    values flats, answer;
    memory source, target;
    uint32_t area, area_size; /* the return area, which the second half may write */
    witcall_call call;
} half;

/* ---- the calls of the library ---- */

static witcall_status ask(const void *call, witcall_request *requests, size_t len, uint64_t limit) {
    const half *h = call;
    const memory *m = &h->source;
    if (h->leaves && h->is_begun)
        return witcall_call_leave_requests(
            h->package, &h->call, h->answer.at, h->answer.len, m->at, m->len, requests, len, limit);
    if (h->leaves)
        return witcall_leave_requests(
            h->package, h->func, h->answer.at, h->answer.len, m->at, m->len, requests, len, limit);
    if (h->is_begun)
        return witcall_call_enter_requests(h->package, &h->call, m->at, m->len, requests, len, limit);
    return witcall_enter_requests(h->package, h->func, h->flats.at, h->flats.len, m->at, m->len, requests, len, limit);
}

static witcall_status cross(half *h, const witcall_block *blocks, size_t len, witcall_value *out) {
    memory *s = &h->source, *t = &h->target;
    if (h->leaves && h->is_begun)
        return witcall_call_leave(
            h->package, &h->call, h->answer.at, h->answer.len, s->at, s->len, t->at, t->len, blocks, len, out,
            WITCALL_MAX_VALUES);
    if (h->leaves)
        return witcall_leave(
            h->package, h->func, h->flats.at, h->flats.len, h->answer.at, h->answer.len, s->at, s->len, t->at, t->len,
            blocks, len, out, WITCALL_MAX_VALUES);
    if (h->is_begun)
        return witcall_call_enter(
            h->package, &h->call, s->at, s->len, t->at, t->len, blocks, len, out, WITCALL_MAX_VALUES);
    return witcall_enter(
        h->package, h->func, h->flats.at, h->flats.len, s->at, s->len, t->at, t->len, blocks, len, out,
        WITCALL_MAX_VALUES);
}

/* ---- what is asked for ---- */

static witcall_status read_json(half *h, uint8_t *text, size_t len, uint64_t limit) {
    memory *m = &h->source;
    return witcall_read_json(h->package, h->func, h->answer.at, h->answer.len, m->at, m->len, text, len, limit);
}

/* An answer as JSON has one length, or is refused as its requests are. */
static void check_json(half *h, const asked *a) {
    witcall_status told = read_json(h, NULL, 0, LIMIT);
    check_status(told);
    if (!is_done(a->status)) {
        HOLDS(is_same(told, a->status));
        return;
    }
    HOLDS(is_done(told) ? told.count == 0 : is_refused(told, WITCALL_NO_ROOM) && told.count > 0);
    if (a->sum > 0)
        HOLDS(is_refused(read_json(h, NULL, 0, a->sum - 1), WITCALL_ABOVE_LIMIT));
    uint8_t *text = malloc(told.count + 1);
    if (!text)
        abort();
    witcall_status read = read_json(h, text, told.count, a->sum);
    HOLDS(is_done(read) && read.count == told.count);
    free(text);
}

static asked check_ask(half *h) {
    asked a = ask_for(h, ask, h->at_end);
    check_status(a.status);
    mark_status(10 + h->leaves, a.status);
    mark(12 + h->leaves, is_done(a.status) && a.status.count < 32 ? a.status.count : 32 + bits(a.status.count));
    if (is_done(a.status)) {
        check_requests(h, ask, &a, h->at_end);
    } else if (a.status.code == WITCALL_TRAP) {
        HOLDS(a.status.step == (h->leaves ? WITCALL_LIFT_RESULT : WITCALL_LIFT_ARGS));
        HOLDS(a.status.number <= 5 || a.status.number == 8);
        HOLDS(is_same(ask(h, NULL, 0, UINT64_MAX), a.status));
    } else {
        HOLDS(is_refused(a.status, WITCALL_ABOVE_LIMIT));
        HOLDS(is_refused(ask(h, NULL, 0, LIMIT / 2), WITCALL_ABOVE_LIMIT));
    }
    if (h->leaves && !h->is_begun)
        check_json(h, &a);
    HOLDS(memcmp(h->source.at, h->source.before, h->source.len) == 0);
    return a;
}

/* ---- the half ---- */

/* What the half may write besides the blocks. */
static witcall_block area_of(const half *h) {
    return (witcall_block){1, h->leaves ? h->area_size : 0, h->area};
}

static void check_target(half *h, const asked *a, witcall_status status) {
    const bool nothing = is_refused(status, WITCALL_BAD_BLOCK) || (status.code == WITCALL_TRAP && status.number == 8);
    check_written(&h->target, a, area_of(h), nothing);
    HOLDS(memcmp(h->source.at, h->source.before, h->source.len) == 0);
}

/* The kinds of the core values that a half hands out. */
static size_t kinds_of(half *h, uint32_t *kinds) {
    witcall_status told =
        (h->leaves ? witcall_lowered_result : witcall_lifted_params)(h->package, h->func, kinds, WITCALL_MAX_VALUES);
    HOLDS(is_done(told));
    return told.count;
}

static void check_values(half *h, witcall_status status, const witcall_value *out) {
    uint32_t kinds[WITCALL_MAX_VALUES];
    const size_t count = kinds_of(h, kinds);
    HOLDS(!is_done(status) || status.count == count);
    check_handed(out, kinds, is_done(status) ? count : 0);
}

/* What was put asks for the same blocks, as the arguments or the answer of a call of its own. */
static void check_copy(half *h, const asked *a, const witcall_value *out, size_t count) {
    static half copy;
    static witcall_request again[SLOTS];
    witcall_value given[WITCALL_MAX_VALUES + 1];
    copy.package = h->package, copy.func = h->func, copy.leaves = h->leaves, copy.is_begun = false;
    memcpy(given, out, count * sizeof *out);
    if (h->leaves && h->area_size)
        given[count++] = (witcall_value){0, h->area};
    if (!h->leaves && h->area_size)
        given[count++] = h->flats.at[h->flats.len - 1];
    copy.flats = copy.answer = (values){given, count};
    copy.source.at = h->target.at, copy.source.len = h->target.len;
    witcall_status status = ask(&copy, again, SLOTS, LIMIT);
    HOLDS(is_same(status, a->status));
    HOLDS(status.count == 0 || memcmp(again, a->requests, status.count * sizeof *again) == 0);
}

static witcall_status check_cross(half *h, asked *a, witcall_value *out) {
    memset(out, 0xee, WITCALL_MAX_VALUES * sizeof *out);
    witcall_status status = cross(h, a->blocks, a->granted, out);
    check_status(status);
    mark_status(14 + h->leaves, status);
    check_target(h, a, status);
    check_values(h, status, out);
    const bool is_told = is_done(a->status), is_whole = is_told && a->granted == a->status.count;
    HOLDS(is_told || !is_done(status));
    HOLDS(is_whole || !is_done(status));
    if (is_whole && !a->is_changed && !h->leaves)
        HOLDS(is_done(status));
    if (is_told && !is_whole && !a->is_changed && !h->leaves)
        HOLDS(status.code == WITCALL_TRAP && status.number == 6 && status.step == WITCALL_LOWER_ARGS);
    if (is_done(status))
        check_copy(h, a, out, status.count);
    return status;
}

/* The same half of a call that was begun: what is asked for, and what is put. */
static void check_begun(half *h, const asked *a, witcall_status status, const witcall_value *out) {
    static uint8_t after[MEMORY];
    witcall_value *again = fenced(8, WITCALL_MAX_VALUES * sizeof *again, h->at_end);
    witcall_status begun = witcall_begin(h->package, h->func, h->flats.at, h->flats.len, &h->call);
    HOLDS(is_done(begun) || (begun.code == WITCALL_TRAP && begun.number == 8 && begun.step == WITCALL_LIFT_ARGS));
    if (!is_done(begun))
        return;
    h->is_begun = true;
    HOLDS(is_same(ask(h, NULL, 0, LIMIT), a->status));
    memcpy(after, h->target.at, h->target.len);
    memcpy(h->target.at, h->target.before, h->target.len);
    memset(again, 0xee, WITCALL_MAX_VALUES * sizeof *again);
    HOLDS(is_same(cross(h, a->blocks, a->granted, again), status));
    HOLDS(memcmp(again, out, WITCALL_MAX_VALUES * sizeof *again) == 0);
    HOLDS(memcmp(after, h->target.at, h->target.len) == 0);
    h->is_begun = false;
}

/* ---- cases ---- */

static void put_case(
    half *h, const asked *a, const uint8_t *text, size_t text_len, witcall_status status, const witcall_value *out) {
    if (!cases())
        return;
    put_words("{\"of\":\"%s\",\"text\":", h->leaves ? "leave" : "enter"), put_hex(text, text_len);
    if (!is_named(h->package, h->func)) {
        put_words("}\n");
        return;
    }
    put_flats("flats", h->flats), put_flats("answer", h->answer);
    put_words(",\"source\":"), put_hex(h->source.at, h->source.len);
    put_words(",\"target\":"), put_hex(h->target.before, h->target.len);
    put_words(",\"limit\":%d,\"asked\":", LIMIT), put_status(a->status);
    put_blocks(a);
    put_words(",\"half\":"), put_status(status);
    put_flats("values", (values){(witcall_value *)out, is_done(status) ? status.count : 0});
    put_words(",\"after\":"), put_hex(h->target.at, h->target.len);
    put_words("}\n");
}

/* ---- an input ---- */

/* The core values of a call, of arguments that are built in the caller. */
static values make_flats(builder *b, uint32_t func, bool at_end) {
    uint64_t out[MOST_FLATS];
    uint32_t kinds[WITCALL_MAX_VALUES], count = 0, flat = 0;
    const witcall_row_info row = row_of(b, func);
    for (uint32_t i = 0; i < row.members && flat <= 16; i++)
        flat += flat_count(b, member_of(b, func, i).type);
    uint32_t at = 0;
    const bool has_room = flat > 16 && has_block(b, row.type.align, row.type.size, &at);
    for (uint32_t i = 0; i < row.members && (flat <= 16 || has_room); i++) {
        const witcall_member_info member = member_of(b, func, i);
        if (flat > 16)
            put(b, member.type, at + member.offset);
        else
            count = put_flat(b, member.type, out, count);
    }
    if (flat > 16)
        out[count++] = at;
    if (has_area(b, func)) {
        const witcall_type_info result = result_of(b, func);
        out[count++] = has_block(b, result.align, result.size, &at) && take(b->in, 1) < 240 ? at : take(b->in, 2);
    }
    HOLDS(witcall_lowered_params(b->package, func, kinds, WITCALL_MAX_VALUES).count == count);
    return new_values(2, out, kinds, count, at_end);
}

typedef struct {
    witcall_package package;
    const uint8_t *text;
    size_t text_len;
    half enter, leave;
} call;

/* An input whose first byte is even: types and values that it chooses. */
static bool is_built(call *c, input *in, bool at_end) {
    static char text[16384];
    make_text(in, text, sizeof text);
    c->text = (const uint8_t *)text, c->text_len = strlen(text);
    HOLDS(is_done(witcall_open(c->text, c->text_len, &c->package)));
    witcall_status found = witcall_find(&c->package, BYTES("a:b/c"), BYTES("f"));
    HOLDS(is_done(found));
    const size_t caller_len = below(in, MEMORY), callee_len = below(in, MEMORY);
    c->enter.func = found.count;
    c->enter.source = new_memory(0, NULL, caller_len, at_end);
    c->leave.source = new_memory(1, NULL, callee_len, at_end);
    builder caller = {&c->package, in, c->enter.source.at, (uint32_t)caller_len, below(in, 64)};
    builder callee = {&c->package, in, c->leave.source.at, (uint32_t)callee_len, below(in, 64)};
    c->enter.flats = make_flats(&caller, found.count, at_end);
    c->enter.answer = make_answer(&callee, found.count, at_end);
    return true;
}

/* An input whose first byte is odd: a text, the index of a function, memories and core values as they are. */
static bool is_read(call *c, input *in, bool at_end) {
    input text = part(in, take(in, 2));
    c->text = text.at, c->text_len = text.len;
    if (!is_done(witcall_open(text.at, text.len, &c->package)))
        return false;
    if (!has_function(&c->package, take(in, 1), &c->enter.func))
        return false;
    c->enter.source = read_memory(0, in, at_end);
    c->leave.source = read_memory(1, in, at_end);
    c->enter.flats = read_values(2, in, at_end);
    c->enter.answer = read_values(3, in, at_end);
    return true;
}

/* Gives both halves what they have in common. The callee of the first is as the answer was built in, the caller of the
 * second as it was read. */
static void complete(call *c, input *in, bool at_end) {
    builder b = {.package = &c->package};
    half *e = &c->enter, *l = &c->leave;
    change_values(&e->flats, in), change_values(&e->answer, in);
    e->package = &c->package, e->at_end = at_end, e->leaves = false;
    if (has_area(&b, e->func)) {
        e->area = e->flats.len ? (uint32_t)e->flats.at[e->flats.len - 1].bits : 0;
        e->area_size = result_of(&b, e->func).size;
    }
    e->target = l->source;
    memcpy(e->source.before, e->source.at, e->source.len);
    memcpy(e->target.before, e->target.at, e->target.len);
    l->package = e->package, l->func = e->func, l->at_end = at_end, l->leaves = true;
    l->flats = e->flats, l->answer = e->answer, l->area = e->area, l->area_size = e->area_size;
    l->target = e->source;
    memcpy(l->source.before, l->source.at, l->source.len);
}

static void check_half(call *c, half *h, input *in) {
    witcall_value *out = fenced(7, WITCALL_MAX_VALUES * sizeof *out, h->at_end);
    asked a = check_ask(h);
    grant(&a, in, h->target.len, area_of(h), h->at_end);
    witcall_status status = check_cross(h, &a, out);
    mark_types(h->package, status.code * 100 + status.number * 10 + h->leaves);
    put_case(h, &a, c->text, c->text_len, status, out);
    check_begun(h, &a, status, out);
    memcpy(h->target.at, h->target.before, h->target.len);
}

int LLVMFuzzerTestOneInput(const uint8_t *data, size_t len) {
    static call c;
    input in = {data, len};
    const uint32_t first = take(&in, 1);
    const bool at_end = !(first & 2);
    memset(&c, 0, sizeof c);
    const bool is_made = first & 1 ? is_read(&c, &in, at_end) : is_built(&c, &in, at_end);
    if (is_made) {
        complete(&c, &in, at_end);
        check_half(&c, &c.enter, &in);
        check_half(&c, &c.leave, &in);
    }
    witcall_close(&c.package);
    return is_made ? 0 : -1;
}
