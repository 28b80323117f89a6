/* Makes the calls of vectors.c through witcall_call.h. Each memory is at a new address after each block that its
 * allocator grants and after each core function, with other bytes where it was before.
 *
 * usage: linked_vectors [export | import]
 */
#include "calls.h"
#include "witcall_call.h"

/* A call that is being made, and its function. */
typedef struct {
    call *call;
    uint32_t func;
    const called *function;
    answer *answer;
} running;

/* ---- guests ---- */

static void move(memory *m) {
    uint8_t *moved = room_for(m->len, 1);
    if (m->len) {
        memcpy(moved, m->bytes, m->len);
        memset(m->bytes, 0xee, m->len);
    }
    free(m->bytes);
    m->bytes = moved;
}

static uint8_t *bytes_now(void *context, size_t *len) {
    memory *m = context;
    *len = m->len;
    return m->bytes;
}

static uint32_t new_block(void *context, uint32_t old, uint32_t old_size, uint32_t align, uint32_t size) {
    memory *m = context;
    if (old || old_size)
        fail("a block is made longer");
    bool granted = is_noted(m, align, size);
    move(m);
    uint32_t at = granted ? m->blocks[m->asked - 1].at : WITCALL_STOPPED;
    /* the last address says that there is no room: the one before is as far outside */
    return granted && at == WITCALL_STOPPED ? at - 1 : at;
}

static witcall_guest guest_of(memory *m) {
    return (witcall_guest){.context = m, .limit = NO_LIMIT, .memory = bytes_now, .realloc = new_block};
}

static uint32_t run_body(void *context, const witcall_value *handed, uint32_t count, witcall_value *given) {
    running *r = context;
    const values *wanted = &r->function->answer;
    bool ran = has_run(r->function, &r->call->callee, handed, count, r->answer);
    move(&r->call->caller);
    move(&r->call->callee);
    if (!ran || wanted->len > WITCALL_MAX_VALUES)
        return WITCALL_STOPPED;
    if (wanted->len)
        memcpy(given, wanted->at, wanted->len * sizeof *given);
    return wanted->len;
}

static uint32_t run_post(void *context, const witcall_value *given, uint32_t count) {
    running *r = context;
    return has_finished(r->function, given, count, r->answer) ? 0 : WITCALL_STOPPED;
}

static witcall_body body_of(running *r) {
    return (witcall_body){.context = r, .run = run_body, .post_return = run_post};
}

/* ---- the three ways ---- */

static void link_both(call *c, uint32_t func, const called *f, answer *a) {
    running r = {c, func, f, a};
    const witcall_guest caller = guest_of(&c->caller), callee = guest_of(&c->callee);
    const witcall_body body = body_of(&r);
    const witcall_link link = {&c->package, func, &caller, &callee, &body};
    if (!failed(a, witcall_link_call(&link, f->flats.at, f->flats.len, a->back.at)))
        a->back.len = a->status.count;
}

/* Takes what a text has. */
static void keep_text(answer *a, const uint8_t *bytes, size_t len) {
    free(a->text);
    a->text = room_for(len, 1);
    a->text_len = len;
    if (len)
        memcpy(a->text, bytes, len);
}

/* The host makes the call with the arguments that the caller's memory has. */
static void call_export(call *c, uint32_t func, const called *f, answer *a) {
    running r = {c, func, f, a};
    const witcall_guest callee = guest_of(&c->callee);
    const witcall_body body = body_of(&r);
    const witcall_export called = {&c->package, func, &callee, &body};
    static uint8_t json[MOST_TEXT];
    witcall_text result = WITCALL_NO_TEXT;
    if (failed(a, witcall_read_arguments_json(&c->package, func, f->flats.at, f->flats.len, c->caller.bytes,
        c->caller.len, json,
                                              sizeof json, NO_LIMIT)))
        return;
    keep_text(a, json, a->status.count);
    failed(a, witcall_export_call_json(&called, a->text, a->text_len, &result));
    if (a->post_ran)
        keep_text(a, result.bytes, result.len);
    witcall_text_free(&result);
}

/* The host's function, which gives the result that the callee's memory has. */
static uint32_t serve(void *context, const uint8_t *json, size_t json_len, witcall_text *result) {
    running *r = context;
    call *c = r->call;
    const values *given = &r->function->answer;
    keep_text(r->answer, json, json_len);
    bool ran = has_run(r->function, &c->callee, NULL, 0, r->answer);
    move(&c->caller);
    if (!ran || witcall_text_room(result, MOST_TEXT) != 0)
        return WITCALL_STOPPED;
    witcall_status read = witcall_read_json(
        &c->package, r->func, given->at, given->len, c->callee.bytes, c->callee.len, result->bytes, result->room,
        NO_LIMIT);
    if (read.code != WITCALL_DONE)
        return WITCALL_STOPPED;
    result->len = read.count;
    keep_text(r->answer, result->bytes, result->len);
    return 0;
}

static void serve_import(call *c, uint32_t func, const called *f, answer *a) {
    running r = {c, func, f, a};
    const witcall_guest caller = guest_of(&c->caller);
    const witcall_server server = {&r, serve};
    const witcall_import served = {&c->package, func, &caller};
    if (!failed(a, witcall_import_serve_json(&served, &server, f->flats.at, f->flats.len, a->back.at)))
        a->back.len = a->status.count;
}

int main(int words, char **word) {
    make_all(words, word, link_both, call_export, serve_import);
    return 0;
}
