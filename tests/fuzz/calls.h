/* What halves.c and json.c share of calls: memories, core values, what is asked for, and what is granted. */
#ifndef CALLS_H
#define CALLS_H
#include "build.h"

#define MEMORY 4096
#define LIMIT 16384
/* Each request is that of an address and a length in a block, in a record or among the core values. */
#define SLOTS (LIMIT / 8 + MEMORY / 8 + WITCALL_MAX_VALUES)

typedef struct {
    uint8_t *at, before[MEMORY];
    size_t len;
} memory;

typedef struct {
    witcall_value *at;
    size_t len;
} values;

/* What a call asked for, and what was granted. */
typedef struct {
    witcall_status status;
    witcall_request *requests;
    witcall_block *blocks;
    uint64_t sum;
    size_t granted;
    bool is_changed; /* whether the input changed a block */
} asked;

/* A call of the library that asks for blocks. */
typedef witcall_status asking(const void *call, witcall_request *requests, size_t len, uint64_t limit);

/* ---- memories and core values ---- */

/* A memory of its own, and what it holds. */
static inline memory new_memory(int fence, const uint8_t *bytes, size_t len, bool at_end) {
    memory m = {.at = fenced(fence, len, at_end), .len = len};
    memset(m.at, 0, len);
    if (bytes)
        memcpy(m.at, bytes, len);
    return m;
}

static inline values new_values(int fence, const uint64_t *bits_of, const uint32_t *kinds, size_t len, bool at_end) {
    values v = {fenced(fence, len * sizeof *v.at, at_end), len};
    for (size_t i = 0; i < len; i++)
        v.at[i] = (witcall_value){kinds[i], bits_of[i]};
    return v;
}

/* Core values as the input has them: how many, and a kind and eight bytes for each. */
static inline values read_values(int fence, input *in, bool at_end) {
    uint64_t out[20];
    uint32_t kinds[20], count = below(in, 20);
    for (uint32_t i = 0; i < count; i++) {
        kinds[i] = take(in, 1);
        out[i] = take(in, 4);
        out[i] |= (uint64_t)take(in, 4) << 32;
    }
    return new_values(fence, out, kinds, count, at_end);
}

static inline memory read_memory(int fence, input *in, bool at_end) {
    const size_t len = take(in, 2) % MEMORY;
    input bytes = part(in, len);
    memory m = new_memory(fence, NULL, len, at_end);
    if (bytes.len)
        memcpy(m.at, bytes.at, bytes.len);
    return m;
}

/* Changes the core values, if the input says so: a kind, a number or how many they are. */
static inline void change_values(values *v, input *in) {
    const uint32_t how = take(in, 1);
    if (how < 244 || v->len == 0)
        return;
    const uint32_t place = below(in, (uint32_t)v->len);
    if (how < 248)
        v->at[place].kind = take(in, 1);
    else if (how < 254)
        v->at[place].bits = take(in, 4) | (uint64_t)take(in, 4) << 32;
    else
        v->len--;
}

/* ---- functions ---- */

/* Finds a function by its index; false if there is none, or its types are larger than the memories. */
static inline bool has_function(witcall_package *package, uint32_t index, uint32_t *number) {
    witcall_row_info row;
    for (*number = 0; is_done(witcall_row(package, *number, &row)); ++*number)
        if (row.type.kind == WITCALL_FUNCTION && index-- == 0)
            return row.type.size <= MEMORY && row.target.size <= MEMORY;
    return false;
}

/* The result's type; of kind WITCALL_NO_TYPE if there is none. */
static inline witcall_type_info result_of(builder *b, uint32_t func) {
    return row_of(b, func).target;
}

/* Whether it goes through memory: the callee answers an address, and the caller gets nothing. */
static inline bool has_area(builder *b, uint32_t func) {
    witcall_status lifted =
        witcall_lifted_result(b->package, func, (uint32_t[WITCALL_MAX_VALUES]){0}, WITCALL_MAX_VALUES);
    witcall_status lowered =
        witcall_lowered_result(b->package, func, (uint32_t[WITCALL_MAX_VALUES]){0}, WITCALL_MAX_VALUES);
    HOLDS(is_done(lifted) && is_done(lowered));
    return lifted.count == 1 && lowered.count == 0;
}

/* The core values that a function answers, of a result that is built in the callee. */
static inline values make_answer(builder *b, uint32_t func, bool at_end) {
    uint64_t out[MOST_FLATS];
    uint32_t kinds[WITCALL_MAX_VALUES], count = 0;
    const witcall_type_info result = result_of(b, func);
    if (has_area(b, func))
        out[count++] = put_stored(b, result);
    else if (result.kind != WITCALL_NO_TYPE)
        count = put_flat(b, result, out, 0);
    HOLDS(witcall_lifted_result(b->package, func, kinds, WITCALL_MAX_VALUES).count == count);
    return new_values(3, out, kinds, count, at_end);
}

/* Marks what the package has, beside how a call ended. */
static inline void mark_types(witcall_package *package, uint32_t end) {
    witcall_row_info row;
    witcall_member_info member;
    for (uint32_t i = 0; i < 40 && is_done(witcall_row(package, i, &row)); i++) {
        mark(1000 + row.type.kind * 32 + row.target.kind, end);
        for (uint32_t j = 0; j < row.members && j < 20 && is_done(witcall_member(package, i, j, &member)); j++)
            mark(3000 + row.type.kind * 32 + member.type.kind, end);
    }
}

/* ---- what is asked for ---- */

static inline asked ask_for(const void *call, asking *ask, bool at_end) {
    asked a = {.requests = fenced(4, SLOTS * sizeof *a.requests, at_end)};
    memset(a.requests, 0xee, SLOTS * sizeof *a.requests);
    a.status = ask(call, a.requests, SLOTS, LIMIT);
    return a;
}

/* What is asked for in a call that is done: the same with other limits and with less room. */
static inline void check_requests(const void *call, asking *ask, asked *a, bool at_end) {
    a->sum = 0;
    HOLDS(a->status.count <= SLOTS);
    for (size_t i = 0; i < SLOTS; i++) {
        const witcall_request r = a->requests[i];
        if (i >= a->status.count) {
            HOLDS(r.align == 0xeeeeeeee && r.size == 0xeeeeeeee);
            continue;
        }
        HOLDS(r.align == 1 || r.align == 2 || r.align == 4 || r.align == 8);
        a->sum += r.size;
    }
    HOLDS(a->sum <= LIMIT);
    HOLDS(is_same(ask(call, NULL, 0, a->sum), a->status));
    HOLDS(is_same(ask(call, NULL, 0, UINT64_MAX), a->status));
    if (a->sum > 0)
        HOLDS(is_refused(ask(call, NULL, 0, a->sum - 1), WITCALL_ABOVE_LIMIT));
    const size_t half_of = a->status.count / 2;
    witcall_request *few = fenced(5, half_of * sizeof *few, at_end);
    HOLDS(is_same(ask(call, few, half_of, LIMIT), a->status));
    HOLDS(half_of == 0 || memcmp(few, a->requests, half_of * sizeof *few) == 0);
}

/* ---- blocks ---- */

/* Changes a block, if the input says so. */
static inline void change_block(asked *a, input *in) {
    const uint32_t how = take(in, 1);
    if (how < 224 || a->granted == 0)
        return;
    witcall_block *block = &a->blocks[below(in, (uint32_t)a->granted)];
    const uint32_t number = take(in, how % 2 ? 1 : 2);
    *(how % 3 == 0 ? &block->align : how % 3 == 1 ? &block->size : &block->at) = number;
    a->is_changed = true;
}

/* Grants blocks of a memory upwards from a place that the input says, up to the first that has no room. They lie beside
 * an area, if it has any bytes. */
static inline void grant(asked *a, input *in, size_t len, witcall_block area, bool at_end) {
    const size_t count = is_done(a->status) ? a->status.count : 0;
    const uint64_t end = (uint64_t)area.at + area.size;
    uint64_t top = below(in, 256);
    a->blocks = fenced(6, count * sizeof *a->blocks, at_end);
    for (a->granted = 0; a->granted < count; a->granted++) {
        const witcall_request r = a->requests[a->granted];
        uint64_t at = (top + r.align - 1) / r.align * r.align;
        if (area.size > 0 && at < end && area.at < at + r.size)
            at = (end + r.align - 1) / r.align * r.align;
        if (at + r.size > len)
            break;
        a->blocks[a->granted] = (witcall_block){r.align, r.size, (uint32_t)at};
        top = at + r.size;
    }
    change_block(a, in);
}

static inline void mark_block(witcall_block block, size_t len, bool *may) {
    for (uint64_t at = block.at; at < (uint64_t)block.at + block.size && at < len; at++)
        may[at] = true;
}

/* Tests that a memory is as it was, outside the blocks and an area; and in these, if nothing may be written. */
static inline void check_written(const memory *m, const asked *a, witcall_block area, bool nothing) {
    static bool may[MEMORY];
    memset(may, 0, MEMORY);
    for (size_t i = 0; i < a->granted; i++)
        mark_block(a->blocks[i], m->len, may);
    mark_block(area, m->len, may);
    for (size_t i = 0; i < m->len; i++)
        HOLDS(m->at[i] == m->before[i] || (may[i] && !nothing));
}

/* Tests that core values which are handed out are those of a signature, and that no other place is written to. */
static inline void check_handed(const witcall_value *out, const uint32_t *kinds, size_t count) {
    for (size_t i = 0; i < WITCALL_MAX_VALUES; i++)
        if (i < count)
            HOLDS(out[i].kind == kinds[i] && (out[i].kind || out[i].bits <= UINT32_MAX));
        else
            HOLDS(out[i].kind == 0xeeeeeeee && out[i].bits == 0xeeeeeeeeeeeeeeee);
}

/* ---- cases ---- */

static inline void put_flats(const char *name, values v) {
    put_words(",\"%s\":[", name);
    for (size_t i = 0; i < v.len; i++)
        put_words("%s[%u,%llu]", i ? "," : "", v.at[i].kind, (unsigned long long)v.at[i].bits);
    put_words("]");
}

/* Puts the name of a function; false if it is one of a world. */
static inline bool is_named(witcall_package *package, uint32_t func) {
    uint8_t owner[600], name[WITCALL_MAX_LABEL];
    witcall_row_info row;
    witcall_row(package, func, &row);
    if (row.owner_kind != WITCALL_INTERFACE)
        return false;
    witcall_status told_owner = witcall_owner_name(package, row.owner_kind, row.owner, owner, sizeof owner);
    witcall_status told = witcall_row_name(package, func, name, sizeof name);
    if (!is_done(told_owner) || !is_done(told))
        return false;
    put_words(",\"iface\":"), put_hex(owner, told_owner.count), put_words(",\"func\":"), put_hex(name, told.count);
    return true;
}

static inline void put_blocks(const asked *a) {
    put_words(",\"requests\":[");
    for (size_t i = 0; is_done(a->status) && i < a->status.count; i++)
        put_words("%s[%u,%u]", i ? "," : "", a->requests[i].align, a->requests[i].size);
    put_words("],\"blocks\":[");
    for (size_t i = 0; i < a->granted; i++)
        put_words("%s[%u,%u,%u]", i ? "," : "", a->blocks[i].align, a->blocks[i].size, a->blocks[i].at);
    put_words("]");
}
#endif
