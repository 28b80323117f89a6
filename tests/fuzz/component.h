/* Changes of the types of a component by their structure (Binary.md). A section of types is read, and its parts are
 * found: lists with the places of their items, numbers of types, primitive types and labels. Then one is changed. */
#ifndef COMPONENT_H
#define COMPONENT_H
#include "fuzz.h"

#define MOST_PARTS 4096

/* ---- numbers of a seed ---- */

static uint32_t state;

static inline uint32_t random_below(uint32_t most) {
    state = state * 1664525u + 1013904223u;
    return most ? (state >> 8) % most : 0;
}

/* ---- unsigned LEB128 ---- */

/* The length of the number at the front, and its value; 0 if there is none. */
static inline size_t read_leb(const uint8_t *at, size_t len, uint32_t *number) {
    *number = 0;
    for (size_t i = 0; i < len && i < 5; i++) {
        *number |= (uint32_t)(at[i] & 0x7f) << 7 * i;
        if (!(at[i] & 0x80))
            return i + 1;
    }
    return 0;
}

/* Writes a number in at least so many bytes; at most five. */
static inline size_t write_leb(uint8_t *at, uint32_t number, size_t least) {
    size_t len = 0;
    do {
        at[len] = number & 0x7f;
        number >>= 7;
        len++;
        if (number || len < least)
            at[len - 1] |= 0x80;
    } while (number || len < least);
    return len;
}

/* ---- sections ---- */

typedef struct {
    uint8_t id;
    uint8_t content[65536];
    size_t len;
} section;

/* Replaces some bytes of a section's content by others; false if there is no room. */
static inline bool splice(section *s, size_t at, size_t old, const uint8_t *bytes, size_t len) {
    if (s->len - old + len > sizeof s->content / 2)
        return false;
    memmove(s->content + at + len, s->content + at + old, s->len - at - old);
    memcpy(s->content + at, bytes, len);
    s->len = s->len - old + len;
    return true;
}

/* ---- parts ---- */

/* An item of a list, whose count is at `count_at`. */
typedef struct {
    size_t count_at, from, to;
} item;

typedef struct {
    const section *s;
    size_t at;
    bool is_bad;
    item items[MOST_PARTS];
    size_t places[3][MOST_PARTS]; /* of numbers of types, of primitive types, and of letters in labels */
    size_t items_len, places_len[3];
} parts;

enum { INDEX, PRIMITIVE, LETTER };

static inline uint8_t byte(parts *p) {
    if (p->at < p->s->len)
        return p->s->content[p->at++];
    p->is_bad = true;
    return 0;
}

static inline uint32_t counted(parts *p) {
    uint32_t value;
    const size_t len = read_leb(p->s->content + p->at, p->s->len - p->at, &value);
    p->is_bad |= len == 0;
    p->at += len;
    return value;
}

static inline void place(parts *p, int kind) {
    if (p->places_len[kind] < MOST_PARTS)
        p->places[kind][p->places_len[kind]++] = p->at;
}

static inline void index_of_type(parts *p) {
    place(p, INDEX);
    counted(p);
}

static inline void value_type(parts *p) {
    const uint8_t first = p->at < p->s->len ? p->s->content[p->at] : 0;
    if (first >= 0x73 && first <= 0x7f) {
        place(p, PRIMITIVE);
        p->at++;
    } else {
        index_of_type(p);
    }
}

static inline void optional(parts *p) {
    if (byte(p))
        value_type(p);
}

static inline void name(parts *p) {
    const uint32_t len = counted(p);
    p->is_bad |= len > p->s->len - p->at;
    for (uint32_t i = 0; !p->is_bad && i < len; i++, p->at++)
        if (p->s->content[p->at] >= 'a' && p->s->content[p->at] <= 'z')
            place(p, LETTER);
}

/* A list of items that one function reads. */
static inline void list(parts *p, void (*read)(parts *)) {
    const size_t count_at = p->at;
    for (uint32_t count = counted(p); count && !p->is_bad; count--) {
        const size_t from = p->at;
        read(p);
        if (p->items_len < MOST_PARTS)
            p->items[p->items_len++] = (item){count_at, from, p->at};
    }
}

static inline void field(parts *p) { name(p), value_type(p); }
static inline void variant_case(parts *p) { name(p), optional(p), byte(p); }
static inline void extern_name(parts *p) { byte(p), name(p); }

static inline void description(parts *p) {
    const uint8_t kind = byte(p);
    if (kind != 3 || byte(p) == 0)
        index_of_type(p);
}

static inline void alias(parts *p) {
    if (byte(p) == 0)
        byte(p);
    const bool is_outer = byte(p) != 0;
    index_of_type(p);
    if (is_outer)
        index_of_type(p);
    else
        name(p);
}

static inline void type(parts *p);

static inline void declaration(parts *p) {
    const uint8_t kind = byte(p);
    if (kind == 1)
        type(p);
    else if (kind == 2)
        alias(p);
    else if (kind == 3 || kind == 4)
        extern_name(p), description(p);
    else
        p->is_bad = true;
}

static inline void function_type(parts *p) {
    list(p, field);
    if (byte(p) == 0)
        value_type(p);
    else
        byte(p);
}

static inline void type(parts *p) {
    switch (byte(p)) {
        case 0x41:
        case 0x42: list(p, declaration); break;
        case 0x40: function_type(p); break;
        case 0x72: list(p, field); break;
        case 0x71: list(p, variant_case); break;
        case 0x6d:
        case 0x6e: list(p, name); break;
        case 0x6f: list(p, value_type); break;
        case 0x6a: optional(p), optional(p); break;
        case 0x6b:
        case 0x70: value_type(p); break;
        default: p->at--, value_type(p);
    }
}

/* ---- changes ---- */

/* Copies an item to behind another one of its list, or leaves it out. The count is right then. */
static inline void change_items(section *s, const parts *p) {
    uint8_t bytes[4096], written[8];
    uint32_t count;
    if (p->items_len == 0)
        return;
    const item one = p->items[random_below((uint32_t)p->items_len)];
    item other = p->items[random_below((uint32_t)p->items_len)];
    if (other.count_at != one.count_at)
        other = one;
    const size_t len = one.to - one.from, old = read_leb(s->content + one.count_at, 5, &count);
    const bool is_more = random_below(3) != 0;
    if (len > sizeof bytes)
        return;
    memcpy(bytes, s->content + one.from, len);
    if (splice(s, is_more ? other.to : one.from, is_more ? 0 : len, bytes, is_more ? len : 0))
        splice(s, one.count_at, old, written, write_leb(written, is_more ? count + 1 : count - 1, 1));
}

/* Changes a number of a type, a primitive type or a letter. */
static inline void change_place(section *s, const parts *p) {
    const uint32_t how = random_below(4), kind = how < 3 ? how : LETTER;
    if (p->places_len[kind] == 0)
        return;
    uint8_t *at = &s->content[p->places[kind][random_below((uint32_t)p->places_len[kind])]];
    if (kind == INDEX)
        *at = (uint8_t)(random_below(2) ? *at + random_below(3) - 1 : random_below(32)) & 0x7f;
    else
        *at = (uint8_t)(kind == PRIMITIVE ? 0x73 + random_below(13) : 'a' + random_below(26));
}

/* Changes a section of types; false if it isn't read to its end. */
static inline bool has_changed_types(section *s) {
    static parts p;
    p = (parts){.s = s};
    list(&p, type);
    if (p.is_bad || p.at != s->len)
        return false;
    if (random_below(2))
        change_items(s, &p);
    else
        change_place(s, &p);
    return true;
}
#endif
