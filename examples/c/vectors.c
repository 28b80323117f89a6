/* Makes calls through the library that are said on standard input, and tells what each did (calls.h). It makes them in
 * halves, by hand.
 *
 * usage: vectors [export | import]
 */
#include "calls.h"

typedef struct {
    const witcall_block *at;
    size_t len;
} granted;

/* Asks a memory's allocator for these blocks in turn, up to the first that it refuses. */
static granted grant(memory *m, const witcall_request *requests, size_t count) {
    granted blocks = {m->blocks + m->asked, 0};
    while (blocks.len < count && is_noted(m, requests[blocks.len].align, requests[blocks.len].size))
        blocks.len++;
    return blocks;
}

/* Whether there are so many requests that the array has them all. */
static bool has_all(answer *a, witcall_status asked) {
    if (failed(a, asked))
        return false;
    if (asked.count > MOST_BLOCKS)
        fail("too many blocks");
    return true;
}

static void stop(answer *a, uint32_t step) {
    a->status = (witcall_status){.code = WITCALL_TRAP, .number = 7, .step = step};
}

static void run_body(const called *f, memory *callee, uint32_t count, answer *a) {
    const values handed = a->body_got;
    if (!has_run(f, callee, handed.at, count, a))
        stop(a, BODY);
}

static void run_post(const called *f, answer *a) {
    if (!has_finished(f, f->answer.at, f->answer.len, a))
        stop(a, POST);
}

/* ---- between two guests ---- */

/* The first half, and the run of the body. */
static void enter(call *c, uint32_t func, const called *f, answer *a) {
    witcall_request requests[MOST_BLOCKS];
    memory *from = &c->caller, *to = &c->callee;
    witcall_status asked = witcall_enter_requests(
        &c->package, func, f->flats.at, f->flats.len, from->bytes, from->len, requests, MOST_BLOCKS, NO_LIMIT);
    if (!has_all(a, asked))
        return;
    granted blocks = grant(to, requests, asked.count);
    witcall_status entered = witcall_enter(
        &c->package, func, f->flats.at, f->flats.len, from->bytes, from->len, to->bytes, to->len, blocks.at, blocks.len,
        a->body_got.at, MOST_VALUES);
    if (!failed(a, entered))
        run_body(f, to, entered.count, a);
}

/* The second half, and the run of post-return. */
static void leave(call *c, uint32_t func, const called *f, answer *a) {
    witcall_request requests[MOST_BLOCKS];
    memory *from = &c->callee, *to = &c->caller;
    witcall_status asked = witcall_leave_requests(
        &c->package, func, f->answer.at, f->answer.len, from->bytes, from->len, requests, MOST_BLOCKS, NO_LIMIT);
    if (!has_all(a, asked))
        return;
    granted blocks = grant(to, requests, asked.count);
    witcall_status left = witcall_leave(
        &c->package, func, f->flats.at, f->flats.len, f->answer.at, f->answer.len, from->bytes, from->len, to->bytes,
        to->len, blocks.at, blocks.len, a->back.at, MOST_VALUES);
    if (failed(a, left))
        return;
    a->back.len = left.count;
    run_post(f, a);
}

static void link_by_hand(call *c, uint32_t func, const called *f, answer *a) {
    enter(c, func, f, a);
    if (a->status.code == WITCALL_DONE)
        leave(c, func, f, a);
}

/* ---- with values as JSON ---- */

static uint8_t text[MOST_TEXT];

static void keep_text(answer *a, size_t len) {
    a->text = room_for(len, 1);
    a->text_len = len;
    if (len)
        memcpy(a->text, text, len);
}

/* The arguments that the caller's memory has; false if they are none. */
static bool has_arguments(call *c, uint32_t func, const called *f, answer *a) {
    memory *from = &c->caller;
    witcall_status read = witcall_read_arguments_json(
        &c->package, func, f->flats.at, f->flats.len, from->bytes, from->len, text, sizeof text, NO_LIMIT);
    if (failed(a, read))
        return false;
    keep_text(a, read.count);
    return true;
}

/* The result that the callee's memory has; false if it is none. */
static bool has_result(call *c, uint32_t func, const called *f, answer *a) {
    memory *from = &c->callee;
    witcall_status read = witcall_read_json(
        &c->package, func, f->answer.at, f->answer.len, from->bytes, from->len, text, sizeof text, NO_LIMIT);
    if (failed(a, read))
        return false;
    free(a->text);
    keep_text(a, read.count);
    return true;
}

static void export_by_hand(call *c, uint32_t func, const called *f, answer *a) {
    witcall_request requests[MOST_BLOCKS];
    memory *to = &c->callee;
    if (!has_arguments(c, func, f, a))
        return;
    witcall_status asked = witcall_json_requests(&c->package, func, a->text, a->text_len, requests, MOST_BLOCKS,
        NO_LIMIT);
    if (!has_all(a, asked))
        return;
    granted blocks = grant(to, requests, asked.count);
    witcall_status filled = witcall_fill_json(
        &c->package, func, a->text, a->text_len, to->bytes, to->len, blocks.at, blocks.len, a->body_got.at,
        MOST_VALUES);
    if (failed(a, filled))
        return;
    run_body(f, to, filled.count, a);
    if (a->status.code != WITCALL_DONE || !has_result(c, func, f, a))
        return;
    run_post(f, a);
    if (a->status.code != WITCALL_DONE)
        a->text_len = 0;
}

static void import_by_hand(call *c, uint32_t func, const called *f, answer *a) {
    witcall_request requests[MOST_BLOCKS];
    memory *to = &c->caller;
    if (!has_arguments(c, func, f, a))
        return;
    run_body(f, &c->callee, 0, a);
    if (a->status.code != WITCALL_DONE)
        return;
    if (!has_result(c, func, f, a)) {
        stop(a, BODY);
        return;
    }
    witcall_status asked = witcall_result_json_requests(
        &c->package, func, a->text, a->text_len, requests, MOST_BLOCKS, NO_LIMIT);
    if (!has_all(a, asked))
        return;
    granted blocks = grant(to, requests, asked.count);
    witcall_status filled = witcall_fill_result_json(
        &c->package, func, f->flats.at, f->flats.len, a->text, a->text_len, to->bytes, to->len, blocks.at, blocks.len,
        a->back.at, MOST_VALUES);
    if (!failed(a, filled))
        a->back.len = filled.count;
}

int main(int words, char **word) {
    make_all(words, word, link_by_hand, export_by_hand, import_by_hand);
    return 0;
}
