/* witcall for C and C++ hosts: each call is one function, over the halves of witcall.h. docs/C.md is its manual.
 *
 *   witcall_link_call         a guest calls a function of another guest
 *   witcall_export_call       the host calls a function of a guest, with values of the types of `wit-explain bind c`
 *   witcall_import_serve      a guest calls a function of the host, with values of these types
 *   witcall_export_call_json  the host calls a function of a guest, with values as JSON
 *   witcall_import_serve_json a guest calls a function of the host, with values as JSON
 *
 * Each has the steps of docs/C.md in it: it asks which blocks are needed, has the allocator grant each of them in
 * order, makes the first half, runs the core function once, makes the second half in the same way, and runs
 * post-return. All tests are those of the halves, in their order.
 *
 * A memory may move and grow whenever an allocator or a core function runs: its address and its length are taken anew
 * for each half. No call of the library is under way while they run, so they may make calls themselves, with the same
 * package too.
 *
 * What the host owes besides what witcall.h says:
 *   - The two memories of a call are two.
 *   - What a guest's `memory` gave is good until the next of the host's functions below runs, but for `memory` of the
 * other guest.
 *   - The functions below return. Neither longjmp nor an exception leaves them: a trap of an engine is caught in them,
 * and told by
 *     WITCALL_STOPPED.
 *
 * A status that is not done stands: nothing is done again, no core function is run a second time, and what follows that
 * step was not done. A guest that trapped is not to be entered again, which is up to the host. A guest whose import is
 * not done has no value to go on with: the host traps it. The package can be used again. After each status of the
 * callee's side:
 *
 *   status                    callee's blocks   core function   caller's blocks   post-return
 *   before the blocks         none              not run         none              not run       a trap in lift-args,
 * 61, 62, 63, 66, 70, 76
 *   trap K6 in lower-args     those before      not run         none              not run       also in place, of
 * values as JSON
 *   72, 73                    all, or K6's      not run         none              not run       if they come of the
 * first half
 *   trap K7 in body           all               trapped         none              not run
 *   a trap in lift-result     all               has run         none              not run       also 66, 72, 76
 *   trap K6 in lower-result   all               has run         those before      not run
 *   72, 73, a trap in         all               has run         all               not run       if they come of the
 * second half
 *     lower-result
 *   trap K7 in post           all               has run         all               trapped       the caller has the
 * result
 *
 * Blocks that a guest's allocator granted stay granted: they are the guest's, which frees them.
 *
 * The header allocates arrays by malloc if a half has more than WITCALL_FEW_BLOCKS blocks, of 20 bytes for each, and
 * texts of JSON. Both are bounded by the limit of the guest (docs/C.md), and are freed before the call ends, except the
 * text of a result. It needs C99 or C++11. Names that end in `_` are its own. */
#ifndef WITCALL_CALL_H
#define WITCALL_CALL_H

#include "witcall.h"
#include <stdlib.h>
#include <string.h>

#ifdef __cplusplus
extern "C" {
#endif

/* The steps of a trap K7 (witcall.h has the others): the core function, or the host's own function, stopped;
 * post-return did. */
#define WITCALL_BODY 4
#define WITCALL_POST 7

/* What the host's functions below return if the guest trapped in them, or if there is no room for a block. */
#define WITCALL_STOPPED UINT32_MAX

/* The blocks of a half for which nothing is allocated. */
#define WITCALL_FEW_BLOCKS 32

/* ---- what the host gives ---- */

/* A guest: its memory and its allocator. context is the host's own, and is given to both functions. */
typedef struct {
    void *context;

    /* The greatest size of the memory, in bytes. Blocks of a half that have more bytes together are not asked for (76).
     * */
    uint64_t limit;

    /* The memory as it is now: its bytes, and their number in len. Of a memory of no bytes it may be null. */
    uint8_t *(*memory)(void *context, size_t *len);

    /* cabi_realloc of the guest: a block of size bytes at a multiple of align. A call asks for new blocks alone: old
     * and old_size are 0. It returns the address, or WITCALL_STOPPED if it trapped. */
    uint32_t (*realloc)(void *context, uint32_t old, uint32_t old_size, uint32_t align, uint32_t size);
} witcall_guest;

/* A core function, and its post-return. context is the host's own, and is given to both. */
typedef struct {
    void *context;

    /* Runs the core function on count core values. It writes what the function answers into answer, which has room for
     * WITCALL_MAX_VALUES, and returns how many there are: 0 or 1. If the guest trapped, it returns WITCALL_STOPPED. */
    uint32_t (*run)(void *context, const witcall_value *handed, uint32_t count, witcall_value *answer);

    /* Runs post-return on the count core values that the core function answered: 0, or WITCALL_STOPPED if the guest
     * trapped. It is null if the function has none. */
    uint32_t (*post_return)(void *context, const witcall_value *answer, uint32_t count);
} witcall_body;

/* A memory of the host's own, in which it has the values of a call by the types of `wit-explain bind c`: an array of
 * size bytes. Each block is above all earlier ones, from top on. It begins as {bytes, size, 0}. Set top back to free
 * the blocks above it. */
typedef struct {
    uint8_t *bytes;
    size_t size;
    size_t top;
} witcall_array_memory;

/* A text: len bytes of UTF-8, with no end, in an array of room bytes that malloc made. It begins as WITCALL_NO_TEXT,
 * and is to be freed. */
typedef struct {
    uint8_t *bytes;
    size_t len;
    size_t room;
} witcall_text;

#define WITCALL_NO_TEXT {0, 0, 0}

/* A function of the host with values as JSON. serve gets an array of the arguments, and puts its result into a text
 * that is empty: the value alone, or nothing if the function has no result. It returns 0, or WITCALL_STOPPED if it
 * failed. */
typedef struct {
    void *context;
    uint32_t (*serve)(void *context, const uint8_t *json, size_t json_len, witcall_text *result);
} witcall_server;

/* A function of the callee, as the caller imports it. func is its number (witcall_find). */
typedef struct {
    witcall_package *package;
    uint32_t func;
    const witcall_guest *caller;
    const witcall_guest *callee;
    const witcall_body *body;
} witcall_link;

/* A function that a guest exports, and the host calls. */
typedef struct {
    witcall_package *package;
    uint32_t func;
    const witcall_guest *guest;
    const witcall_body *body;
} witcall_export;

/* A function that a guest imports, and the host serves. */
typedef struct {
    witcall_package *package;
    uint32_t func;
    const witcall_guest *guest;
} witcall_import;

/* ---- statuses, memories and texts ---- */

/* The line of a status with an end, in an array of WITCALL_MAX_STATUS_LINE + 1; of one that is done an empty one. It
 * returns line. */
static inline const char *witcall_status_words(witcall_status status, char *line) {
    witcall_status told = witcall_status_line(status, (uint8_t *)line, WITCALL_MAX_STATUS_LINE);
    line[told.count] = '\0';
    return line;
}

/* The address of a new block in a memory of the host's; WITCALL_STOPPED if there is no room. */
static inline uint32_t witcall_array_allocate(witcall_array_memory *memory, uint32_t align, uint32_t size) {
    uint64_t at = ((uint64_t)memory->top + align - 1) / align * align;
    if (at > memory->size || size > memory->size - at || at >= WITCALL_STOPPED)
        return WITCALL_STOPPED;
    memory->top = (size_t)at + size;
    return (uint32_t)at;
}

/* Puts bytes into a new block: its address, or WITCALL_STOPPED if there is no room. */
static inline uint32_t witcall_array_put(witcall_array_memory *memory, const void *bytes, uint32_t size) {
    uint32_t at = witcall_array_allocate(memory, 1, size);
    if (at != WITCALL_STOPPED && size > 0)
        memcpy(memory->bytes + at, bytes, size);
    return at;
}

static inline uint8_t *witcall_array_bytes_(void *context, size_t *len) {
    const witcall_array_memory *memory = (const witcall_array_memory *)context;
    *len = memory->size;
    return memory->bytes;
}

static inline uint32_t witcall_array_grant_(
    void *context, uint32_t old, uint32_t old_size, uint32_t align, uint32_t size) {
    (void)old, (void)old_size;
    return witcall_array_allocate((witcall_array_memory *)context, align, size);
}

/* A memory of the host's as one side of a call. It is good as long as memory is there. */
static inline witcall_guest witcall_array_guest(witcall_array_memory *memory) {
    witcall_guest guest;
    guest.context = memory;
    guest.limit = memory->size;
    guest.memory = witcall_array_bytes_;
    guest.realloc = witcall_array_grant_;
    return guest;
}

static inline witcall_status witcall_status_(uint32_t code, uint32_t number, uint32_t step) {
    witcall_status status;
    status.code = code;
    status.number = number;
    status.step = step;
    status.count = 0;
    return status;
}

static inline witcall_status witcall_out_of_memory_(void) {
    return witcall_status_(WITCALL_NO_MEMORY, 66, 0);
}

/* Room for so many bytes in a text; 0, or WITCALL_STOPPED if the process is out of memory. */
static inline uint32_t witcall_text_room(witcall_text *text, size_t room) {
    uint8_t *bytes;
    if (room <= text->room)
        return 0;
    bytes = (uint8_t *)realloc(text->bytes, room);
    if (!bytes)
        return WITCALL_STOPPED;
    text->bytes = bytes;
    text->room = room;
    return 0;
}

/* Puts bytes behind a text; 0, or WITCALL_STOPPED if the process is out of memory. */
static inline uint32_t witcall_text_put(witcall_text *text, const void *bytes, size_t len) {
    size_t needed = text->len + len, twice = 2 * text->room;
    if (needed < len || (needed > text->room && witcall_text_room(text, needed > twice ? needed : twice) != 0))
        return WITCALL_STOPPED;
    if (len > 0)
        memcpy(text->bytes + text->len, bytes, len);
    text->len = needed;
    return 0;
}

/* Frees a text, and makes it WITCALL_NO_TEXT. */
static inline void witcall_text_free(witcall_text *text) {
    free(text->bytes);
    text->bytes = 0;
    text->len = 0;
    text->room = 0;
}

/* ---- blocks ---- */

/* The requests of a half, and the blocks that were granted for the first count of them. */
typedef struct {
    witcall_request *requests;
    witcall_block *blocks;
    size_t count;
    witcall_request few_requests[WITCALL_FEW_BLOCKS];
    witcall_block few_blocks[WITCALL_FEW_BLOCKS];
} witcall_blocks_;

/* Asks which blocks a half needs: count in all, of which as many are told as there is room for. */
typedef witcall_status witcall_asking_(const void *half, witcall_request *requests, size_t room);

/* Asks for the requests, with as much room as they need; count of the status is their number. */
static inline witcall_status witcall_ask_(witcall_blocks_ *blocks, witcall_asking_ *ask, const void *half) {
    witcall_status asked = ask(half, blocks->few_requests, WITCALL_FEW_BLOCKS);
    size_t room = asked.count;
    blocks->requests = blocks->few_requests;
    blocks->blocks = blocks->few_blocks;
    if (asked.code != WITCALL_DONE || room <= WITCALL_FEW_BLOCKS)
        return asked;
    blocks->requests = (witcall_request *)calloc(room, sizeof *blocks->requests);
    blocks->blocks = (witcall_block *)calloc(room, sizeof *blocks->blocks);
    if (!blocks->requests || !blocks->blocks)
        return witcall_out_of_memory_();
    asked = ask(half, blocks->requests, room);
    if (asked.count > room)
        asked.count = (uint32_t)room;
    return asked;
}

/* Asks for the requests, and has the guest grant each of them in order, up to the first that it has no room for. */
static inline witcall_status witcall_grant_(
    witcall_blocks_ *blocks, const witcall_guest *guest, witcall_asking_ *ask, const void *half) {
    witcall_status asked = witcall_ask_(blocks, ask, half);
    blocks->count = 0;
    for (size_t i = 0; asked.code == WITCALL_DONE && i < asked.count; i++) {
        witcall_request wanted = blocks->requests[i];
        uint32_t at = guest->realloc(guest->context, 0, 0, wanted.align, wanted.size);
        if (at == WITCALL_STOPPED)
            break;
        blocks->blocks[i].align = wanted.align;
        blocks->blocks[i].size = wanted.size;
        blocks->blocks[i].at = at;
        blocks->count++;
    }
    return asked;
}

static inline void witcall_free_(witcall_blocks_ *blocks) {
    if (blocks->requests != blocks->few_requests) {
        free(blocks->requests);
        free(blocks->blocks);
    }
}

/* ---- core functions ---- */

/* What a core function answered. */
typedef struct {
    witcall_value values[WITCALL_MAX_VALUES];
    uint32_t count;
} witcall_answer_;

static inline witcall_status witcall_run_(
    const witcall_body *body, const witcall_value *handed, uint32_t count, witcall_answer_ *answer) {
    answer->count = body->run(body->context, handed, count, answer->values);
    return answer->count > WITCALL_MAX_VALUES ? witcall_status_(WITCALL_TRAP, 7, WITCALL_BODY) :
        witcall_status_(WITCALL_DONE, 0, 0);
}

/* Runs post-return behind a second half: the status of that half, or the trap. */
static inline witcall_status witcall_finish_(
    const witcall_body *body, const witcall_answer_ *answer, witcall_status left) {
    if (left.code != WITCALL_DONE || !body->post_return || body->post_return(body->context, answer->values,
        answer->count) == 0)
        return left;
    return witcall_status_(WITCALL_TRAP, 7, WITCALL_POST);
}

/* ---- a call between two guests ---- */

typedef struct {
    const witcall_link *link;
    const witcall_value *flats;
    size_t flats_len;
    const witcall_answer_ *answer;
} witcall_linked_;

static inline witcall_status witcall_ask_enter_(const void *half, witcall_request *requests, size_t room) {
    const witcall_linked_ *call = (const witcall_linked_ *)half;
    const witcall_link *link = call->link;
    size_t len = 0;
    uint8_t *bytes = link->caller->memory(link->caller->context, &len);
    return witcall_enter_requests(link->package, link->func, call->flats, call->flats_len, bytes, len, requests, room,
        link->callee->limit);
}

static inline witcall_status witcall_ask_leave_(const void *half, witcall_request *requests, size_t room) {
    const witcall_linked_ *call = (const witcall_linked_ *)half;
    const witcall_link *link = call->link;
    size_t len = 0;
    uint8_t *bytes = link->callee->memory(link->callee->context, &len);
    return witcall_leave_requests(link->package, link->func, call->answer->values, call->answer->count, bytes, len,
        requests, room,
                                  link->caller->limit);
}

static inline witcall_status witcall_enter_(const witcall_linked_ *call, witcall_value *handed) {
    const witcall_link *link = call->link;
    witcall_blocks_ blocks;
    witcall_status status = witcall_grant_(&blocks, link->callee, witcall_ask_enter_, call);
    if (status.code == WITCALL_DONE) {
        size_t caller_len = 0, callee_len = 0;
        uint8_t *caller = link->caller->memory(link->caller->context, &caller_len);
        uint8_t *callee = link->callee->memory(link->callee->context, &callee_len);
        status = witcall_enter(link->package, link->func, call->flats, call->flats_len, caller, caller_len, callee,
        callee_len,
                               blocks.blocks, blocks.count, handed, WITCALL_MAX_VALUES);
    }
    witcall_free_(&blocks);
    return status;
}

static inline witcall_status witcall_leave_(const witcall_linked_ *call, witcall_value *told) {
    const witcall_link *link = call->link;
    const witcall_answer_ *answer = call->answer;
    witcall_blocks_ blocks;
    witcall_status status = witcall_grant_(&blocks, link->caller, witcall_ask_leave_, call);
    if (status.code == WITCALL_DONE) {
        size_t caller_len = 0, callee_len = 0;
        uint8_t *callee = link->callee->memory(link->callee->context, &callee_len);
        uint8_t *caller = link->caller->memory(link->caller->context, &caller_len);
        status = witcall_leave(link->package, link->func, call->flats, call->flats_len, answer->values, answer->count,
        callee, callee_len,
                               caller, caller_len, blocks.blocks, blocks.count, told, WITCALL_MAX_VALUES);
    }
    witcall_free_(&blocks);
    return status;
}

/* A guest calls a function of another guest, with the core values that it passed to its import: those of the arguments,
 * and behind them the address of the return area if the result does not go flat. The callee's allocator grants the
 * blocks of the arguments, and the caller's those of the result. count of the status is how many core values the caller
 * gets: 0, or 1 that is in back, which may be null. flats stay as they are until the call ends. The table above says
 * what was done after each status. */
static inline witcall_status witcall_link_call(
    const witcall_link *link, const witcall_value *flats, size_t flats_len, witcall_value *back) {
    witcall_value told[WITCALL_MAX_VALUES];
    witcall_answer_ answer;
    witcall_linked_ call;
    witcall_status status;
    call.link = link;
    call.flats = flats;
    call.flats_len = flats_len;
    call.answer = &answer;
    status = witcall_enter_(&call, told);
    if (status.code == WITCALL_DONE)
        status = witcall_run_(link->body, told, status.count, &answer);
    if (status.code != WITCALL_DONE)
        return status;
    status = witcall_leave_(&call, told);
    if (status.code == WITCALL_DONE && status.count > 0 && back)
        *back = told[0];
    return witcall_finish_(link->body, &answer, status);
}

/* ---- calls by the types of `wit-explain bind c` ---- */

/* The host calls a function of a guest. Its arguments are in own, a memory of the host's, and flats are the core values
 * that the `fill` of the function's header makes of them. own also has the return area, for which the header says size
 * and alignment, and gets the result, which the `read` of the header reads. All else is as of witcall_link_call, whose
 * caller own is. The blocks in own stay until the host sets top back. */
static inline witcall_status witcall_export_call(
    const witcall_export *called, witcall_array_memory *own, const witcall_value *flats, size_t flats_len,
    witcall_value *back) {
    const witcall_guest caller = witcall_array_guest(own);
    witcall_link link;
    link.package = called->package;
    link.func = called->func;
    link.caller = &caller;
    link.callee = called->guest;
    link.body = called->body;
    return witcall_link_call(&link, flats, flats_len, back);
}

/* A guest calls a function of the host, with the core values that it passed to its import. The arguments are put into
 * own, a memory of the host's, in which the function, the run of body, finds them by the `receive` of the function's
 * header. It answers by the header's `answer`, with values that are in own. All else is as of witcall_link_call, whose
 * callee own is. When the call ends, the blocks that it made in own are free. */
static inline witcall_status witcall_import_serve(
    const witcall_import *served, witcall_array_memory *own, const witcall_body *body, const witcall_value *flats,
    size_t flats_len, witcall_value *back) {
    const witcall_guest callee = witcall_array_guest(own);
    const size_t top = own->top;
    witcall_link link;
    witcall_status status;
    link.package = served->package;
    link.func = served->func;
    link.caller = served->guest;
    link.callee = &callee;
    link.body = body;
    status = witcall_link_call(&link, flats, flats_len, back);
    own->top = top;
    return status;
}

/* ---- calls with values as JSON ---- */

/* A text that is put into a guest's memory. */
typedef struct {
    witcall_package *package;
    uint32_t func;
    const uint8_t *json;
    size_t json_len;
    uint64_t limit;
} witcall_put_;

static inline witcall_status witcall_ask_arguments_(const void *half, witcall_request *requests, size_t room) {
    const witcall_put_ *put = (const witcall_put_ *)half;
    return witcall_json_requests(put->package, put->func, put->json, put->json_len, requests, room, put->limit);
}

static inline witcall_status witcall_ask_result_(const void *half, witcall_request *requests, size_t room) {
    const witcall_put_ *put = (const witcall_put_ *)half;
    return witcall_result_json_requests(put->package, put->func, put->json, put->json_len, requests, room, put->limit);
}

static inline witcall_status witcall_fill_(const witcall_put_ *put, const witcall_guest *guest, witcall_value *handed) {
    witcall_blocks_ blocks;
    witcall_status status = witcall_grant_(&blocks, guest, witcall_ask_arguments_, put);
    if (status.code == WITCALL_DONE) {
        size_t len = 0;
        uint8_t *bytes = guest->memory(guest->context, &len);
        status = witcall_fill_json(put->package, put->func, put->json, put->json_len, bytes, len, blocks.blocks,
        blocks.count, handed,
                                   WITCALL_MAX_VALUES);
    }
    witcall_free_(&blocks);
    return status;
}

/* Reads the result once more if it has no room at first: the memory is only read. */
static inline witcall_status witcall_read_(
    const witcall_export *called, const witcall_answer_ *answer, witcall_text *result) {
    for (;;) {
        size_t len = 0;
        uint8_t *bytes = called->guest->memory(called->guest->context, &len);
        witcall_status status = witcall_read_json(called->package, called->func, answer->values, answer->count, bytes,
        len, result->bytes,
                                                  result->room, called->guest->limit);
        int is_short = status.code == WITCALL_REFUSED && status.number == WITCALL_NO_ROOM && status.count >
        result->room;
        result->len = status.code == WITCALL_DONE ? status.count : 0;
        if (!is_short)
            return status;
        if (witcall_text_room(result, status.count) != 0)
            return witcall_out_of_memory_();
    }
}

/* The host calls a function of a guest, with the arguments as a text of JSON, an array of one value for each parameter.
 * result gets the value of the result, and is empty if the function has none, or if the status is not done; what was in
 * it is forgotten. The guest's allocator grants the blocks of the arguments. count of the status is the length of the
 * result. After 62 witcall_json_fault says what is wrong in the text. The table above says what was done after each
 * status, with no blocks of a caller's; a trap in place stands for one in lower-args. */
static inline witcall_status witcall_export_call_json(
    const witcall_export *called, const uint8_t *json, size_t json_len, witcall_text *result) {
    witcall_value handed[WITCALL_MAX_VALUES];
    witcall_answer_ answer;
    witcall_put_ put;
    witcall_status status;
    put.package = called->package;
    put.func = called->func;
    put.json = json;
    put.json_len = json_len;
    put.limit = called->guest->limit;
    result->len = 0;
    status = witcall_fill_(&put, called->guest, handed);
    if (status.code == WITCALL_DONE)
        status = witcall_run_(called->body, handed, status.count, &answer);
    if (status.code == WITCALL_DONE)
        status = witcall_finish_(called->body, &answer, witcall_read_(called, &answer, result));
    if (status.code != WITCALL_DONE)
        result->len = 0;
    return status;
}

typedef struct {
    const witcall_import *import;
    const witcall_value *flats;
    size_t flats_len;
} witcall_served_;

static inline witcall_status witcall_read_arguments_(const witcall_served_ *call, witcall_text *arguments) {
    const witcall_import *served = call->import;
    for (;;) {
        size_t len = 0;
        uint8_t *bytes = served->guest->memory(served->guest->context, &len);
        witcall_status status = witcall_read_arguments_json(served->package, served->func, call->flats, call->flats_len,
        bytes, len,
                                                            arguments->bytes, arguments->room, served->guest->limit);
        int is_short = status.code == WITCALL_REFUSED && status.number == WITCALL_NO_ROOM && status.count >
        arguments->room;
        arguments->len = status.code == WITCALL_DONE ? status.count : 0;
        if (!is_short)
            return status;
        if (witcall_text_room(arguments, status.count) != 0)
            return witcall_out_of_memory_();
    }
}

/* Puts the result into the guest's memory. */
static inline witcall_status witcall_answer_json_(
    const witcall_served_ *call, const witcall_text *result, witcall_value *told) {
    const witcall_import *served = call->import;
    witcall_blocks_ blocks;
    witcall_put_ put;
    witcall_status status;
    put.package = served->package;
    put.func = served->func;
    put.json = result->bytes;
    put.json_len = result->len;
    put.limit = served->guest->limit;
    status = witcall_grant_(&blocks, served->guest, witcall_ask_result_, &put);
    if (status.code == WITCALL_DONE) {
        size_t len = 0;
        uint8_t *bytes = served->guest->memory(served->guest->context, &len);
        status = witcall_fill_result_json(put.package, put.func, call->flats, call->flats_len, put.json, put.json_len,
        bytes, len,
                                          blocks.blocks, blocks.count, told, WITCALL_MAX_VALUES);
    }
    witcall_free_(&blocks);
    return status;
}

/* A guest calls a function of the host, with the core values that it passed to its import. The function gets the
 * arguments as JSON, and gives its result as JSON. The guest's allocator grants the blocks of the result. count of the
 * status is how many core values the guest gets: 0, or 1 that is in back, which may be null. If the function fails,
 * this is K7 in body. Before it ran a status is that of witcall_read_arguments_json; after it that of the result: 61 or
 * 62 if the text is none, K6 in place if the guest has no room, and else as of witcall_fill_result_json. */
static inline witcall_status witcall_import_serve_json(
    const witcall_import *served, const witcall_server *server, const witcall_value *flats, size_t flats_len,
    witcall_value *back) {
    witcall_value told[WITCALL_MAX_VALUES];
    witcall_text arguments = WITCALL_NO_TEXT, result = WITCALL_NO_TEXT;
    witcall_served_ call;
    witcall_status status;
    call.import = served;
    call.flats = flats;
    call.flats_len = flats_len;
    status = witcall_read_arguments_(&call, &arguments);
    if (status.code == WITCALL_DONE && server->serve(server->context, arguments.bytes, arguments.len, &result) != 0)
        status = witcall_status_(WITCALL_TRAP, 7, WITCALL_BODY);
    if (status.code == WITCALL_DONE)
        status = witcall_answer_json_(&call, &result, told);
    if (status.code == WITCALL_DONE && status.count > 0 && back)
        *back = told[0];
    witcall_text_free(&arguments);
    witcall_text_free(&result);
    return status;
}

#ifdef __cplusplus
}
#endif

#endif
