/* Calls through witcall_call.h whose halves have 4 to 2,000 blocks, so that the header keeps them in its array or on
 * the heap. Each call is made in five ways, once as it goes well, and again with each harm of the table below. What is
 * compared: the status, the order of blocks, body and post-return, the size of each block, the values on both sides,
 * and what the header allocates. Memories move as blocks are granted, and after each function of the host.
 * Sanitizers look for accesses outside of an array, and for blocks that are left.
 *
 * It is C99 and C++11. tools/wrong_headers.py compiles it with headers that have a fault each.
 *
 * usage: many_blocks [MOST]      MOST is the most blocks of a half, 2,000 if it is not given
 */
#include "blocks.h"
#include <inttypes.h>
#include <stdio.h>
#include <stdlib.h>
#include <string.h>

/* What the header allocates, in order. One of these is refused. */
static size_t allocated, refused_allocation;

static void *counted_calloc(size_t count, size_t size) {
    return ++allocated == refused_allocation ? NULL : calloc(count, size);
}

static void *counted_realloc(void *block, size_t size) {
    return ++allocated == refused_allocation ? NULL : realloc(block, size);
}

/* These stay: a member of a struct of the header has one of the names. */
#define calloc counted_calloc
#define realloc counted_realloc
#include "witcall_call.h"

#define NEVER SIZE_MAX
#define MOST_EVENTS 8192
#define COUNT(array) (sizeof(array) / sizeof *(array))
#define BYTES(text) (const uint8_t *)(text), strlen(text)

static const char TEXT[] =
    "package a:b; interface c {"
    "  give: func(names: list<string>, sizes: list<list<u32>>) -> tuple<list<string>, list<list<u32>>>;"
    "  add: func(a: u32, b: u64) -> u64;"
    "}";

static witcall_package package = WITCALL_NONE;
static uint32_t function;
static size_t most = 2000;
static int failures;

/* ---- calls ---- */

/* What is wrong in a call. A block is one of the half, by its number. */
typedef enum {
    NOTHING,
    BAD_ARGUMENTS,
    LIMIT_OF_ARGUMENTS, /* a byte less than they need */
    REFUSED_ARGUMENT,   /* a block that the allocator has no room for */
    DOUBLE_ARGUMENT,    /* a block that is where the one before is */
    BODY_TRAPS,
    BAD_RESULT,
    LIMIT_OF_RESULT,
    REFUSED_RESULT,
    DOUBLE_RESULT,
    POST_TRAPS,
    NO_MEMORY, /* an allocation of the header's, by its number */
    HARMS
} harm;

/* The guest on one side of a call, if there is one, and the values that it asks blocks for. */
typedef struct side {
    linear_memory lent;
    value wanted;
    size_t asked, refused, doubled;
    uint32_t last;
    char event;
    struct call *call;
} side;

/* A call: its values, what is wrong in it, and what it did. An event is a block of the arguments (a), of the result
 * (r), the body (b), or post-return (p). */
typedef struct call {
    value arguments, result;
    harm harmed;
    side caller, callee;
    uint32_t area, answered;
    witcall_array_memory own;
    char events[MOST_EVENTS];
    size_t happened;
    const char *wrong;
} call;

/* A way to make a call. */
typedef struct {
    const char *name;
    witcall_status (*make)(call *c);
    int guest_calls, guest_serves, is_json;
} way;

static void note(call *c, char event) {
    if (c->happened + 1 == MOST_EVENTS)
        stop("too many events");
    c->events[c->happened++] = event;
}

static void fails(call *c, const char *why) {
    if (!c->wrong)
        c->wrong = why;
}

static uint8_t *memory_of(void *context, size_t *len) {
    side *s = (side *)context;
    *len = s->lent.len;
    return s->lent.bytes;
}

static uint32_t new_block(void *context, uint32_t old, uint32_t old_size, uint32_t align, uint32_t size) {
    side *s = (side *)context;
    size_t number = s->asked++;
    note(s->call, s->event);
    if (number % (1 + blocks_of(s->wanted) / 64) == 0)
        move(&s->lent, s->lent.len);
    if (old || old_size)
        fails(s->call, "a block is made longer");
    if (number >= blocks_of(s->wanted) || request_of(s->wanted, number).align != align ||
        request_of(s->wanted, number).size != size)
        fails(s->call, "another block is asked for");
    if (number == s->refused)
        return WITCALL_STOPPED;
    if (number != s->doubled)
        s->last = place(&s->lent, align, size);
    return s->last;
}

static witcall_guest guest_of(side *s, uint64_t limit) {
    witcall_guest guest = {s, limit, memory_of, new_block};
    return guest;
}

/* The memory in which the callee has its values: that of the guest, or the host's own. */
static linear_memory callee_memory(call *c) {
    linear_memory own = {c->own.bytes, c->own.size, c->own.top};
    return c->callee.call ? c->callee.lent : own;
}

static uint32_t run_give(void *context, const witcall_value *handed, uint32_t count, witcall_value *answer) {
    call *c = (call *)context;
    linear_memory m = callee_memory(c);
    parts given;
    note(c, 'b');
    for (size_t i = 0; i < 4; i++)
        given.at[i] = (uint32_t)handed[i].bits;
    if (count != 4 || !has_value(&m, given, c->arguments))
        fails(c, "the callee gets other arguments");
    answer->kind = 0;
    answer->bits = c->answered;
    if (c->caller.call)
        move(&c->caller.lent, c->caller.lent.len);
    if (c->callee.call)
        move(&c->callee.lent, c->callee.lent.len);
    return c->harmed == BODY_TRAPS ? WITCALL_STOPPED : 1;
}

/* What was answered is gone after post-return. */
static uint32_t post_give(void *context, const witcall_value *answer, uint32_t count) {
    call *c = (call *)context;
    linear_memory m = callee_memory(c);
    note(c, 'p');
    if (count != 1 || answer->bits != c->answered)
        fails(c, "post-return gets another answer");
    memset(m.bytes + c->answered, 0xff, AREA_SIZE);
    return c->harmed == POST_TRAPS ? WITCALL_STOPPED : 0;
}

static witcall_body body_of(call *c) {
    witcall_body body = {c, run_give, post_give};
    return body;
}

/* ---- the sides of a call ---- */

static uint64_t limit_of(call *c, value v, harm small) {
    return size_of(v) - (c->harmed == small);
}

/* The limit of a guest that has both: its result has more bytes than its arguments. */
static uint64_t limit_of_both(call *c) {
    if (c->harmed == LIMIT_OF_ARGUMENTS)
        return limit_of(c, c->arguments, LIMIT_OF_ARGUMENTS);
    return limit_of(c, c->result, LIMIT_OF_RESULT);
}

/* The core values with which the caller calls, whose arguments and return area are in a memory. */
static void call_flats(call *c, linear_memory *m, witcall_value *flats) {
    parts p = put(m, c->arguments);
    c->area = place(m, 4, AREA_SIZE);
    memset(m->bytes + c->area, 0x5a, AREA_SIZE);
    if (c->harmed == BAD_ARGUMENTS)
        spoil(m, p);
    for (size_t i = 0; i < 5; i++) {
        flats[i].kind = 0;
        flats[i].bits = i < 4 ? p.at[i] : c->area;
    }
}

/* Puts what the callee answers into its memory. */
static void put_answer(call *c, linear_memory *m) {
    parts p = put(m, c->result);
    c->answered = place(m, 4, AREA_SIZE);
    if (c->harmed == BAD_RESULT)
        spoil(m, p);
    store_parts(m, c->answered, p);
}

/* The host's own memory, with what is in it, and with room for the blocks of a value. If one of them is refused, there
 * is no room for it, or for the last before it that is not empty. */
static void own_memory(call *c, linear_memory m, value v, size_t refused) {
    size_t top = m.top, last = refused == NEVER ? blocks_of(v) - 1 : refused;
    while (refused != NEVER && request_of(v, last).size == 0)
        last--;
    for (size_t block = 0; block <= last; block++) {
        witcall_request wanted = request_of(v, block);
        top = (top + wanted.align - 1) / wanted.align * wanted.align + wanted.size;
    }
    move(&m, refused == NEVER ? top : top - 1);
    c->own.bytes = m.bytes;
    c->own.size = m.len;
    c->own.top = m.top;
}

/* An empty memory, whose blocks are above so many bytes. */
static linear_memory memory_above(size_t used) {
    linear_memory m = {NULL, 0, 0};
    place(&m, 1, (uint32_t)used);
    return m;
}

/* Tests what the caller's memory has of the result. A second half that ends at a block may have written the area. */
static void test_result(call *c, const linear_memory *m, witcall_status status) {
    int is_done = status.code == WITCALL_DONE || (c->harmed == POST_TRAPS && status.step == WITCALL_POST);
    if (is_done && !has_value(m, load_parts(m, c->area), c->result))
        fails(c, "the caller gets another result");
    if (!is_done && c->harmed != REFUSED_RESULT && load(m, c->area) != 0x5a5a5a5a)
        fails(c, "the return area is written");
}

/* ---- the ways ---- */

static witcall_status link_guests(call *c) {
    witcall_value flats[5];
    witcall_guest caller = guest_of(&c->caller, limit_of(c, c->result, LIMIT_OF_RESULT));
    witcall_guest callee = guest_of(&c->callee, limit_of(c, c->arguments, LIMIT_OF_ARGUMENTS));
    witcall_body body = body_of(c);
    witcall_link link = {&package, function, &caller, &callee, &body};
    witcall_status status;
    call_flats(c, &c->caller.lent, flats);
    put_answer(c, &c->callee.lent);
    status = witcall_link_call(&link, flats, 5, NULL);
    test_result(c, &c->caller.lent, status);
    return status;
}

static witcall_status call_export(call *c) {
    witcall_value flats[5];
    witcall_guest callee = guest_of(&c->callee, limit_of(c, c->arguments, LIMIT_OF_ARGUMENTS));
    witcall_body body = body_of(c);
    witcall_export called = {&package, function, &callee, &body};
    witcall_status status;
    linear_memory own = memory_above(size_of(c->result));
    call_flats(c, &own, flats);
    put_answer(c, &c->callee.lent);
    own_memory(c, own, c->result, c->caller.refused);
    status = witcall_export_call(&called, &c->own, flats, 5, NULL);
    own.bytes = c->own.bytes;
    own.len = c->own.size;
    test_result(c, &own, status);
    return status;
}

static witcall_status serve_import(call *c) {
    witcall_value flats[5];
    witcall_guest caller = guest_of(&c->caller, limit_of(c, c->result, LIMIT_OF_RESULT));
    witcall_body body = body_of(c);
    witcall_import served = {&package, function, &caller};
    witcall_status status;
    linear_memory own = memory_above(size_of(c->arguments));
    call_flats(c, &c->caller.lent, flats);
    put_answer(c, &own);
    own_memory(c, own, c->arguments, c->callee.refused);
    own.top = c->own.top;
    status = witcall_import_serve(&served, &c->own, &body, flats, 5, NULL);
    if (c->own.top != own.top)
        fails(c, "blocks in the host's memory stay");
    test_result(c, &c->caller.lent, status);
    return status;
}

static witcall_status call_export_json(call *c) {
    witcall_guest callee = guest_of(&c->callee, limit_of_both(c));
    witcall_body body = body_of(c);
    witcall_export called = {&package, function, &callee, &body};
    witcall_text result = WITCALL_NO_TEXT;
    witcall_status status;
    char *arguments = json_of(c->arguments), *wanted = json_of(c->result);
    put_answer(c, &c->callee.lent);
    if (c->harmed == BAD_ARGUMENTS)
        strcpy(arguments + strlen(arguments) - 1, ",0]");
    status = witcall_export_call_json(&called, BYTES(arguments), &result);
    if (status.code != WITCALL_DONE && result.len != 0)
        fails(c, "a call that is not done has a result");
    if (status.code == WITCALL_DONE &&
        (result.len != strlen(wanted) || memcmp(result.bytes, wanted, result.len) != 0))
        fails(c, "the host gets another result");
    witcall_text_free(&result);
    free(arguments);
    free(wanted);
    return status;
}

static uint32_t serve_give(void *context, const uint8_t *json, size_t json_len, witcall_text *result) {
    call *c = (call *)context;
    char *arguments = json_of(c->arguments), *given = json_of(c->result);
    size_t before = allocated, refused = refused_allocation;
    uint32_t status;
    note(c, 'b');
    if (json_len != strlen(arguments) || memcmp(json, arguments, json_len) != 0)
        fails(c, "the host gets other arguments");
    if (c->harmed == BAD_RESULT)
        strcpy(given + strlen(given) - 1, ",0]");
    /* what the host's function allocates is not refused, and not counted */
    refused_allocation = 0;
    status = witcall_text_put(result, given, strlen(given));
    refused_allocation = refused;
    allocated = before;
    move(&c->caller.lent, c->caller.lent.len);
    free(arguments);
    free(given);
    return c->harmed == BODY_TRAPS ? WITCALL_STOPPED : status;
}

static witcall_status serve_import_json(call *c) {
    witcall_value flats[5];
    witcall_guest caller = guest_of(&c->caller, limit_of_both(c));
    witcall_server server = {c, serve_give};
    witcall_import served = {&package, function, &caller};
    witcall_status status;
    call_flats(c, &c->caller.lent, flats);
    status = witcall_import_serve_json(&served, &server, flats, 5, NULL);
    test_result(c, &c->caller.lent, status);
    return status;
}

static const way WAYS[] = {
    {"between two guests", link_guests, 1, 1, 0},
    {"of a guest, with the types of bind c", call_export, 0, 1, 0},
    {"of the host, with these types", serve_import, 1, 0, 0},
    {"of a guest, with JSON", call_export_json, 0, 1, 1},
    {"of the host, with JSON", serve_import_json, 1, 0, 1},
};

/* ---- what is wanted ---- */

/* The statuses, but for those of a text of JSON. */
static const witcall_status STATUSES[HARMS] = {
    {WITCALL_DONE, 0, 0, 0},
    {WITCALL_TRAP, 5, WITCALL_LIFT_ARGS, 0},
    {WITCALL_REFUSED, WITCALL_ABOVE_LIMIT, 0, 0},
    {WITCALL_TRAP, 6, WITCALL_LOWER_ARGS, 0},
    {WITCALL_REFUSED, WITCALL_BAD_BLOCK, 0, 0},
    {WITCALL_TRAP, 7, WITCALL_BODY, 0},
    {WITCALL_TRAP, 5, WITCALL_LIFT_RESULT, 0},
    {WITCALL_REFUSED, WITCALL_ABOVE_LIMIT, 0, 0},
    {WITCALL_TRAP, 6, WITCALL_LOWER_RESULT, 0},
    {WITCALL_REFUSED, WITCALL_BAD_BLOCK, 0, 0},
    {WITCALL_TRAP, 7, WITCALL_POST, 0},
    {WITCALL_NO_MEMORY, 66, 0, 0},
};

static witcall_status status_wanted(const way *w, harm harmed) {
    static const witcall_status NO_VALUE = {WITCALL_REFUSED, WITCALL_NOT_THIS_TYPE, 0, 0};
    static const witcall_status NO_PLACE = {WITCALL_TRAP, 6, WITCALL_PLACE, 0};
    harm bad = w->guest_serves ? BAD_ARGUMENTS : BAD_RESULT;
    if (w->is_json && harmed == bad)
        return NO_VALUE;
    if (w->is_json && (harmed == REFUSED_ARGUMENT || harmed == REFUSED_RESULT))
        return NO_PLACE;
    return STATUSES[harmed];
}

/* Whether a harm can be in a call of this way: no guest asks for blocks on a side that has none. */
static int can_have(const way *w, harm harmed) {
    switch (harmed) {
    case LIMIT_OF_ARGUMENTS:
        return w->guest_serves || w->is_json;
    case REFUSED_ARGUMENT:
        return w->guest_serves || !w->is_json;
    case DOUBLE_ARGUMENT:
        return w->guest_serves;
    case LIMIT_OF_RESULT:
        return w->guest_calls || w->is_json;
    case REFUSED_RESULT:
        return w->guest_calls || !w->is_json;
    case DOUBLE_RESULT:
        return w->guest_calls;
    case POST_TRAPS:
        return w->guest_serves || !w->is_json;
    default:
        return 1;
    }
}

static void add(char *events, size_t *count, char event, size_t times) {
    while (times--)
        events[(*count)++] = event;
}

/* Writes the events of a call. */
static size_t events_wanted(const call *c, const way *w, char *events) {
    size_t count = 0, arguments = blocks_of(c->arguments), result = blocks_of(c->result);
    harm h = c->harmed;
    if (h == BAD_ARGUMENTS || h == LIMIT_OF_ARGUMENTS)
        return 0;
    if (w->guest_serves)
        add(events, &count, 'a', h == REFUSED_ARGUMENT ? c->callee.refused + 1 : arguments);
    if (h == REFUSED_ARGUMENT || h == DOUBLE_ARGUMENT)
        return count;
    add(events, &count, 'b', 1);
    if (h == BODY_TRAPS || h == BAD_RESULT || h == LIMIT_OF_RESULT)
        return count;
    if (w->guest_calls)
        add(events, &count, 'r', h == REFUSED_RESULT ? c->caller.refused + 1 : result);
    if (h != REFUSED_RESULT && h != DOUBLE_RESULT && can_have(w, POST_TRAPS))
        add(events, &count, 'p', 1);
    return count;
}

/* Tests what happened, which is a beginning of it if the header had no memory. */
static void test_events(call *c, const way *w) {
    static char wanted[MOST_EVENTS];
    size_t count = events_wanted(c, w, wanted);
    int is_cut = c->harmed == NO_MEMORY && c->happened < count;
    if ((c->happened != count && !is_cut) || memcmp(c->events, wanted, c->happened) != 0)
        fails(c, "blocks, body and post-return are others, or in another order");
}

/* ---- all calls ---- */

static void free_call(call *c) {
    free(c->caller.lent.bytes);
    free(c->callee.lent.bytes);
    free(c->own.bytes);
}

/* A side of a call. Of a harm at a block, number is that block. */
static side side_of(call *c, value wanted, char event, harm refused, harm doubled, size_t number) {
    side s;
    memset(&s, 0, sizeof s);
    s.wanted = wanted;
    s.event = event;
    s.call = c;
    s.refused = c->harmed == refused ? number : NEVER;
    s.doubled = c->harmed == doubled ? number : NEVER;
    return s;
}

/* Makes a call, and says what is wrong; what the header allocated. */
static size_t tested(const way *w, uint32_t blocks, harm harmed, size_t number) {
    static call c;
    witcall_status wanted = status_wanted(w, harmed), found;
    memset(&c, 0, sizeof c);
    c.harmed = harmed;
    c.arguments = value_of(blocks, 1);
    c.result = value_of(blocks + 3, 2);
    c.caller = side_of(&c, c.result, 'r', REFUSED_RESULT, DOUBLE_RESULT, number);
    c.callee = side_of(&c, c.arguments, 'a', REFUSED_ARGUMENT, DOUBLE_ARGUMENT, number);
    if (!w->guest_calls)
        c.caller.call = NULL;
    if (!w->guest_serves)
        c.callee.call = NULL;
    allocated = 0;
    refused_allocation = harmed == NO_MEMORY ? number : 0;
    found = w->make(&c);
    test_events(&c, w);
    if (found.code != wanted.code || found.number != wanted.number || found.step != wanted.step)
        fails(&c, "another status");
    if (c.wrong) {
        printf("FAILED %s, %" PRIu32 " blocks, harm %d at %zu: %s: status %" PRIu32 " %" PRIu32 " in %" PRIu32 "\n",
            w->name, blocks, (int)harmed, number, c.wrong, found.code, found.number, found.step);
        failures++;
    }
    free_call(&c);
    return allocated;
}

/* A block that can't be where the one before is; 0 if there is none. */
static size_t doubled_of(value v) {
    size_t block = blocks_of(v) - 1;
    while (block > 0 && (request_of(v, block).size == 0 || request_of(v, block - 1).size == 0))
        block--;
    return block;
}

/* Makes the calls of a harm at blocks; how many. */
static size_t blocks_tested(const way *w, uint32_t blocks, harm harmed) {
    static const size_t NUMBERS[] = {0, 1, WITCALL_FEW_BLOCKS - 1, WITCALL_FEW_BLOCKS, WITCALL_FEW_BLOCKS + 1};
    size_t calls = 0, last = blocks_of(value_of(harmed == REFUSED_RESULT ? blocks + 3 : blocks, 0)) - 1;
    for (size_t i = 0; i < COUNT(NUMBERS) && NUMBERS[i] < last; i++, calls++)
        tested(w, blocks, harmed, NUMBERS[i]);
    tested(w, blocks, harmed, last);
    return calls + 1;
}

/* Makes the calls of a harm; how many. */
static size_t harm_tested(const way *w, uint32_t blocks, harm harmed) {
    size_t doubled = doubled_of(value_of(harmed == DOUBLE_RESULT ? blocks + 3 : blocks, 0)), count;
    if (!can_have(w, harmed))
        return 0;
    if (harmed == REFUSED_ARGUMENT || harmed == REFUSED_RESULT)
        return blocks_tested(w, blocks, harmed);
    if (harmed == DOUBLE_ARGUMENT || harmed == DOUBLE_RESULT) {
        if (doubled > 0)
            tested(w, blocks, harmed, doubled);
        return doubled > 0;
    }
    if (harmed != NO_MEMORY) {
        tested(w, blocks, harmed, 0);
        return 1;
    }
    count = tested(w, blocks, NOTHING, 0);
    for (size_t i = 1; i <= count; i++)
        tested(w, blocks, NO_MEMORY, i);
    return count + 1;
}

/* Tests how often the header allocates: a text of JSON, and two arrays for each half with more than a few blocks. */
static void allocations_tested(const way *w, uint32_t blocks) {
    size_t wanted = w->is_json ? 1 : 0, found = tested(w, blocks, NOTHING, 0);
    if (blocks > WITCALL_FEW_BLOCKS && can_have(w, REFUSED_ARGUMENT))
        wanted += 2;
    if (blocks + 3 > WITCALL_FEW_BLOCKS && can_have(w, REFUSED_RESULT))
        wanted += 2;
    if (found != wanted) {
        printf("FAILED %s, %" PRIu32 " blocks: %zu allocations, not %zu\n", w->name, blocks, found, wanted);
        failures++;
    }
}

static void way_tested(const way *w) {
    static const uint32_t NUMBERS[] = {4, 7, 28, 29, 30, 31, 32, 33, 34, 63, 64, 65, 500, 2000};
    size_t calls = 0;
    for (size_t i = 0; i < COUNT(NUMBERS) && NUMBERS[i] <= most; i++) {
        for (int harmed = NOTHING; harmed < HARMS; harmed++)
            calls += harm_tested(w, NUMBERS[i], (harm)harmed);
        allocations_tested(w, NUMBERS[i]);
        calls++;
    }
    printf("%zu calls %s\n", calls, w->name);
}

/* ---- memories of the host, and calls without blocks ---- */

static void holds(const char *name, int fact) {
    if (!fact) {
        printf("FAILED %s\n", name);
        failures++;
    }
}

/* A memory of 8 bytes. */
static void array_memory_tested(void) {
    witcall_array_memory own = {(uint8_t *)array(8), 8, 1};
    size_t len = 0;
    witcall_guest guest = witcall_array_guest(&own);
    holds("the guest of an array has its limit", guest.limit == 8);
    holds("the guest of an array has its bytes", guest.memory(guest.context, &len) == own.bytes && len == 8);
    holds("a block is aligned", witcall_array_allocate(&own, 4, 3) == 4 && own.top == 7);
    holds("a block has no room", witcall_array_allocate(&own, 1, 2) == WITCALL_STOPPED && own.top == 7);
    holds("a block has no aligned room", witcall_array_allocate(&own, 16, 0) == WITCALL_STOPPED && own.top == 7);
    holds("a text has room", witcall_array_put(&own, "x", 1) == 7 && own.bytes[7] == 'x' && own.top == 8);
    holds("an empty block is at the end", witcall_array_put(&own, "", 0) == 8 && own.top == 8);
    free(own.bytes);
}

/* A guest without memory. */
static uint8_t *no_memory(void *context, size_t *len) {
    (void)context;
    *len = 0;
    return NULL;
}

static uint32_t no_block(void *context, uint32_t old, uint32_t old_size, uint32_t align, uint32_t size) {
    (void)context, (void)old, (void)old_size, (void)align, (void)size;
    stop("a block is asked for");
    return WITCALL_STOPPED;
}

static uint32_t run_add(void *context, const witcall_value *handed, uint32_t count, witcall_value *answer) {
    (void)context;
    answer->kind = 1;
    answer->bits = handed[0].bits + handed[1].bits;
    return count == 2 ? 1 : WITCALL_STOPPED;
}

static uint32_t serve_add(void *context, const uint8_t *json, size_t json_len, witcall_text *result) {
    (void)context;
    if (json_len != 13 || memcmp(json, "[7,123456789]", 13) != 0)
        return WITCALL_STOPPED;
    return witcall_text_put(result, "123456796", 9);
}

/* A function of numbers without post-return. */
static void numbers_tested(void) {
    witcall_value flats[2] = {{0, 7}, {1, 123456789}}, back = {0, 0};
    witcall_guest guest = {NULL, 0, no_memory, no_block};
    witcall_body body = {NULL, run_add, NULL};
    uint32_t number = witcall_find(&package, BYTES("a:b/c"), BYTES("add")).count;
    witcall_link link = {&package, number, &guest, &guest, &body};
    witcall_export called = {&package, number, &guest, &body};
    witcall_import served = {&package, number, &guest};
    witcall_server server = {NULL, serve_add};
    witcall_text text = WITCALL_NO_TEXT;
    witcall_status linked = witcall_link_call(&link, flats, 2, &back);
    holds("a number comes back", linked.code == WITCALL_DONE && linked.count == 1 && back.kind == 1 &&
        back.bits == 123456796);
    holds("a number is left out", witcall_link_call(&link, flats, 2, NULL).code == WITCALL_DONE);
    holds("a kind is tested", witcall_link_call(&link, flats, 1, &back).number == 8);
    back.bits = 0;
    linked = witcall_import_serve_json(&served, &server, flats, 2, &back);
    holds("a number as JSON comes back", linked.code == WITCALL_DONE && linked.count == 1 && back.bits == 123456796);
    holds("a number as JSON is left out",
        witcall_import_serve_json(&served, &server, flats, 2, NULL).code == WITCALL_DONE);
    witcall_text_put(&text, "what was there", 14);
    linked = witcall_export_call_json(&called, BYTES("[7,5]"), &text);
    holds("a number as JSON is read", linked.code == WITCALL_DONE && linked.count == 2 && text.len == 2 &&
        memcmp(text.bytes, "12", 2) == 0);
    linked = witcall_export_call_json(&called, BYTES("[7]"), &text);
    holds("a text of before is gone", linked.number == WITCALL_NOT_THIS_TYPE && text.len == 0);
    witcall_text_free(&text);
}

int main(int words, char **word) {
    uint8_t *text = (uint8_t *)array(sizeof TEXT - 1);
    witcall_status found;
    memcpy(text, TEXT, sizeof TEXT - 1);
    if (words > 1)
        most = strtoul(word[1], NULL, 10);
    if (witcall_open(text, sizeof TEXT - 1, &package).code != WITCALL_DONE)
        stop("no package");
    found = witcall_find(&package, BYTES("a:b/c"), BYTES("give"));
    if (found.code != WITCALL_DONE)
        stop("no function");
    function = found.count;
    for (size_t i = 0; i < COUNT(WAYS); i++)
        way_tested(&WAYS[i]);
    array_memory_tested();
    numbers_tested();
    witcall_close(&package);
    free(text);
    return failures > 0;
}
