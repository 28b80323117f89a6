/* Packages and values that the bytes of an input choose. Values lie in a memory as their types say. Blocks may be
 * shared, overlap, or lie anywhere. */
#ifndef BUILD_H
#define BUILD_H
#include "fuzz.h"

/* ---- a text with one function, whose types the input chooses ---- */

#define MOST_NODES 24
#define MOST_DEPTH 6

typedef struct {
    input *in;
    uint32_t nodes, names;
    char declared[8192]; /* the declarations so far */
} types;

static const char *const PRIMITIVES[] = {
    "u8", "string", "bool", "s8", "s16", "u16", "s32", "u32", "s64", "u64", "char", "string"};

static inline void append(char *text, const char *more) {
    strcat(text, more);
}

static inline void append_type(types *t, char *out, uint32_t depth);

/* So many types, each in front of a letter for its label if one is given. */
static inline void append_types(types *t, char *out, uint32_t count, uint32_t depth, const char *before) {
    for (uint32_t i = 0; i < count; i++) {
        char label[16];
        snprintf(label, sizeof label, "%s%c%s", i ? ", " : "", 'a' + i % 26, before);
        append(out, *before ? label : i ? ", " : "");
        append_type(t, out, depth);
        append(out, before[0] == '(' ? ")" : "");
    }
}

/* Declares a type of this kind, and puts its name. */
static inline void append_named(types *t, char *out, uint32_t depth, const char *kind, const char *between) {
    static const char *const CASES = "none-a, none-b, none-c, none-d, none-e, none-f, none-g, none-h, none-i, none-j";
    char items[1024] = "", name[16], line[1100];
    uint32_t labels = 1 + below(t->in, 10);
    if (*between)
        append_types(t, items, 1 + below(t->in, 4), depth, between);
    else
        snprintf(items, sizeof items, "%.*s", (int)(8 * labels - 2), CASES);
    if (between[0] == '(')
        append(items, ", nothing");
    snprintf(name, sizeof name, "n%u", t->names++);
    snprintf(line, sizeof line, "  %s %s { %s }\n", kind, name, items);
    append(t->declared, line);
    append(out, name);
}

static inline void append_result(types *t, char *out, uint32_t depth) {
    const uint32_t sides = below(t->in, 4);
    append(out, sides ? "result<" : "result");
    if (sides == 2)
        append(out, "_");
    else if (sides)
        append_type(t, out, depth);
    if (sides > 1) {
        append(out, ", ");
        append_type(t, out, depth);
    }
    append(out, sides ? ">" : "");
}

static inline void append_outer(types *t, char *out, uint32_t depth, const char *name, uint32_t count) {
    append(out, name);
    append_types(t, out, count, depth, "");
    append(out, ">");
}

static inline void append_type(types *t, char *out, uint32_t depth) {
    const uint32_t kind = below(t->in, 24);
    const bool is_leaf = depth == MOST_DEPTH || ++t->nodes > MOST_NODES;
    if (is_leaf || kind < 12)
        append(out, PRIMITIVES[kind % 12]);
    else if (kind < 17)
        append_outer(t, out, depth + 1, "list<", 1);
    else if (kind < 19)
        append_outer(t, out, depth + 1, "tuple<", 1 + below(t->in, 4));
    else if (kind == 19)
        append_outer(t, out, depth + 1, "option<", 1);
    else if (kind == 20)
        append_result(t, out, depth + 1);
    else if (kind == 21)
        append_named(t, out, depth + 1, "record", ": ");
    else if (kind == 22)
        append_named(t, out, depth + 1, "variant", "(");
    else
        append_named(t, out, depth + 1, below(t->in, 2) ? "enum" : "flags", "");
}

/* A package whose interface a:b/c has the function f. */
static inline void make_text(input *in, char *text, size_t room) {
    static const uint32_t COUNTS[] = {1, 1, 1, 2, 2, 3, 0, 20};
    types t = {.in = in};
    char params[4096] = "", result[2048] = "";
    append_types(&t, params, COUNTS[below(in, 8)], 0, ": ");
    if (below(in, 4))
        append(result, " -> "), append_type(&t, result, 0);
    int len = snprintf(text, room, "package a:b;\ninterface c {\n%s  f: func(%s)%s;\n}\n", t.declared, params, result);
    HOLDS((size_t)len < room);
}

/* ---- values ---- */

typedef struct {
    witcall_package *package;
    input *in;
    uint8_t *memory;
    uint32_t len, top;
} builder;

typedef struct {
    uint32_t at, len;
} pair;

/* A block above all others; false if the memory has no room for it. */
static inline bool has_block(builder *b, uint32_t align, uint64_t size, uint32_t *at) {
    uint64_t start = ((uint64_t)b->top + align - 1) / align * align;
    if (start + size > b->len)
        return false;
    *at = (uint32_t)start;
    b->top = (uint32_t)(start + size);
    return true;
}

/* A place that the input chooses, mostly aligned and within the memory: the block is shared with what lies there. */
static inline pair shared(builder *b, uint32_t align, uint32_t size) {
    const uint32_t at = below(b->in, 65536) % (b->len + 1);
    const uint32_t most = size ? (b->len - at) / size : 64;
    const uint32_t count = take(b->in, 1);
    return (pair){at / align * align, count > 248 ? count : most ? count % (most + 1) : 0};
}

static inline void put_number(builder *b, uint32_t at, uint64_t number, uint32_t size) {
    memcpy(b->memory + at, &number, size);
}

static inline uint64_t take_number(builder *b, uint32_t size) {
    uint64_t low = take(b->in, size < 4 ? (int)size : 4);
    return size == 8 ? low | (uint64_t)take(b->in, 4) << 32 : low;
}

static inline void put(builder *b, witcall_type_info type, uint32_t at);

static inline pair make_text_value(builder *b) {
    static const char *const PIECES[] = {
        "a", "z", "\303\274", "\342\202\254", "\360\237\230\200", "\200", "\355\240\200", "\0"};
    const uint32_t how = take(b->in, 1), count = how % 16;
    pair made = {0, 0};
    if (how >= 240)
        return (pair){take(b->in, 4), take(b->in, 4)};
    if (how >= 176)
        return shared(b, 1, 1);
    if (!has_block(b, 1, 4 * count, &made.at))
        return made;
    for (uint32_t i = 0; i < count; i++) {
        const uint32_t piece = take(b->in, 1);
        const char *bytes = PIECES[piece < 240 ? piece % 5 : piece % 8];
        memcpy(b->memory + made.at + made.len, bytes, strlen(bytes));
        made.len += strlen(bytes);
    }
    return made;
}

static inline pair make_list(builder *b, witcall_type_info element) {
    const uint32_t how = take(b->in, 1);
    pair made = {0, how % 16 == 15 ? 32 : how % 16};
    if (how >= 240)
        return (pair){take(b->in, 4), take(b->in, 4)};
    if (how >= 176)
        return shared(b, element.align, element.size);
    if (!has_block(b, element.align, (uint64_t)made.len * element.size, &made.at))
        return (pair){0, 0};
    for (uint32_t i = 0; i < made.len; i++)
        put(b, element, made.at + i * element.size);
    return made;
}

static inline witcall_row_info row_of(builder *b, uint32_t number) {
    witcall_row_info row;
    HOLDS(is_done(witcall_row(b->package, number, &row)));
    return row;
}

static inline witcall_member_info member_of(builder *b, uint32_t row, uint32_t index) {
    witcall_member_info member;
    HOLDS(is_done(witcall_member(b->package, row, index, &member)));
    return member;
}

static inline bool is_variant(uint32_t kind) {
    return kind == WITCALL_OPTION || kind == WITCALL_RESULT || kind == WITCALL_VARIANT || kind == WITCALL_ENUM;
}

static inline bool is_record(uint32_t kind) {
    return kind == WITCALL_RECORD || kind == WITCALL_TUPLE;
}

/* The number of a case, which in a few inputs the variant does not have. */
static inline uint32_t take_case(builder *b, uint32_t members) {
    const uint32_t number = take(b->in, 1);
    return number >= 250 ? members + number - 250 : number % members;
}

static inline uint64_t take_scalar(builder *b, witcall_type_info type) {
    const uint64_t number = take_number(b, type.size);
    return type.kind == WITCALL_CHAR && number < 0xff000000 ? number % 0x110000 : number;
}

/* A string or a list: its address and its length. */
static inline pair make_pair(builder *b, witcall_type_info type) {
    return type.kind == WITCALL_STRING ? make_text_value(b) : make_list(b, row_of(b, type.row).target);
}

/* Puts a value of a type at an address. */
static inline void put(builder *b, witcall_type_info type, uint32_t at) {
    if (type.kind == WITCALL_STRING || type.kind == WITCALL_LIST) {
        const pair made = make_pair(b, type);
        put_number(b, at, made.at | (uint64_t)made.len << 32, 8);
    } else if (is_record(type.kind)) {
        const uint32_t members = row_of(b, type.row).members;
        for (uint32_t i = 0; i < members; i++) {
            const witcall_member_info member = member_of(b, type.row, i);
            put(b, member.type, at + member.offset);
        }
    } else if (is_variant(type.kind)) {
        const uint32_t members = row_of(b, type.row).members, number = take_case(b, members);
        put_number(b, at, number, members <= 256 ? 1 : members <= 65536 ? 2 : 4);
        const witcall_member_info member = member_of(b, type.row, number % members);
        if (member.type.kind != WITCALL_NO_TYPE)
            put(b, member.type, at + member.offset);
    } else {
        put_number(b, at, take_scalar(b, type), type.size);
    }
}

/* ---- flat values ---- */

#define MOST_FLATS 64

/* How many flat values a type has; any number above 16 stands for more than 16. */
static inline uint32_t flat_count(builder *b, witcall_type_info type) {
    uint32_t count = 0;
    if (type.kind == WITCALL_STRING || type.kind == WITCALL_LIST)
        return 2;
    if (!is_record(type.kind) && !is_variant(type.kind))
        return 1;
    const uint32_t members = row_of(b, type.row).members;
    for (uint32_t i = 0; i < members && count <= 16; i++) {
        const witcall_type_info member = member_of(b, type.row, i).type;
        const uint32_t one = member.kind == WITCALL_NO_TYPE ? 0 : flat_count(b, member);
        count = is_record(type.kind) ? count + one : one > count ? one : count;
    }
    return count + is_variant(type.kind);
}

/* Puts the flat values of a value of a type; their kinds come after. Returns how many there are then. */
static inline uint32_t put_flat(builder *b, witcall_type_info type, uint64_t *out, uint32_t count) {
    HOLDS(count < MOST_FLATS - 2);
    if (type.kind == WITCALL_STRING || type.kind == WITCALL_LIST) {
        const pair made = make_pair(b, type);
        out[count] = made.at, out[count + 1] = made.len;
        return count + 2;
    }
    if (is_record(type.kind)) {
        const uint32_t members = row_of(b, type.row).members;
        for (uint32_t i = 0; i < members; i++)
            count = put_flat(b, member_of(b, type.row, i).type, out, count);
        return count;
    }
    if (!is_variant(type.kind)) {
        out[count] = take_scalar(b, type);
        return count + 1;
    }
    const uint32_t members = row_of(b, type.row).members, end = count + flat_count(b, type);
    out[count] = take_case(b, members);
    const witcall_type_info payload = member_of(b, type.row, (uint32_t)(out[count] % members)).type;
    count = payload.kind == WITCALL_NO_TYPE ? count + 1 : put_flat(b, payload, out, count + 1);
    while (count < end)
        out[count++] = take(b->in, 1);
    return count;
}

/* Puts a value of a type into a block of its own; its address. */
static inline uint32_t put_stored(builder *b, witcall_type_info type) {
    uint32_t at;
    if (!has_block(b, type.align, type.size, &at))
        return take(b->in, 2);
    put(b, type, at);
    return at;
}
#endif
