/* The world demo:guest/club@0.1.0 for a guest in C or C++, by wit-explain bind guest. Do not edit. */
#ifndef WIT_DEMO_GUEST_CLUB_H
#define WIT_DEMO_GUEST_CLUB_H

#include <stddef.h>
#include <stdint.h>
#ifndef __cplusplus
#include <stdalign.h>
#ifndef static_assert
#define static_assert _Static_assert
#endif
#endif

#ifdef __cplusplus
extern "C" {
#endif

#ifndef WIT_GUEST
#define WIT_GUEST
#ifndef __wasm32__
#error "a guest is compiled for wasm32"
#endif

/* A bool: 0 is false, all else is true. */
typedef uint8_t wit_bool;

/* A Unicode scalar value. */
typedef uint32_t wit_char;

/* length bytes of UTF-8 at an address. */
typedef struct {
    uint32_t address;
    uint32_t length;
} wit_string;

/* The tags of an option and of a result. */
enum { WIT_NONE, WIT_SOME };
enum { WIT_OK, WIT_ERROR };

/* A block of size bytes. Like the arguments of an export and the results of imports, it is there until the call of the
 * export ends. Traps if there is no room. */
void *wit_allocate(size_t align, size_t size);

/* A call of an export begins, and ends. */
void wit_enter(void);
void wit_leave(void);

/* The bytes of a string. */
static inline char *wit_string_bytes(wit_string string) {
    return (char *)(uintptr_t)string.address;
}

/* A string of bytes that are not copied. */
static inline wit_string wit_string_of(const char *bytes, size_t length) {
    wit_string string = {(uint32_t)(uintptr_t)bytes, (uint32_t)length};
    return string;
}

/* A string in a new block, whose bytes are to be written. */
static inline wit_string wit_string_new(size_t length) {
    return wit_string_of((const char *)wit_allocate(1, length), length);
}

/* A block for so many elements of a list. */
static inline void *wit_allocate_all(size_t align, size_t size, size_t count) {
    if (count > UINT32_MAX / size)
        __builtin_trap();
    return wit_allocate(align, size * count);
}

/* A literal as a string. */
#define WIT_STRING(literal) wit_string_of("" literal, sizeof literal - 1)

/* A core value: its bits. */
typedef uint64_t wit_flat;

static inline void wit_put(wit_flat *flats, size_t place, uint64_t bits) {
    flats[place] = bits;
}

static inline uint32_t wit_i32(const wit_flat *flat) {
    return (uint32_t)*flat;
}

static inline uint64_t wit_i64(const wit_flat *flat) {
    return *flat;
}
#endif /* WIT_GUEST */

/* ---- demo:guest/roster@0.1.0 */

#ifndef WIT_INTERFACE_DEMO_GUEST_ROSTER
#define WIT_INTERFACE_DEMO_GUEST_ROSTER

/* record demo:guest/roster@0.1.0 member */
typedef struct {
    wit_string name;
    uint32_t visits;
} demo_guest_roster_member;
static_assert(sizeof(demo_guest_roster_member) == 12 && alignof(demo_guest_roster_member) == 4, "layout");
static_assert(offsetof(demo_guest_roster_member, name) == 0, "layout");
static_assert(offsetof(demo_guest_roster_member, visits) == 8, "layout");
#endif /* WIT_INTERFACE_DEMO_GUEST_ROSTER */

/* ---- demo:guest/journal@0.1.0 */

#ifndef WIT_INTERFACE_DEMO_GUEST_JOURNAL
#define WIT_INTERFACE_DEMO_GUEST_JOURNAL

/* variant demo:guest/journal@0.1.0 entry */
enum {
    DEMO_GUEST_JOURNAL_ENTRY_OPENED = 0,
    DEMO_GUEST_JOURNAL_ENTRY_COUNTED = 1,
    DEMO_GUEST_JOURNAL_ENTRY_SAID = 2,
};
typedef struct {
    uint8_t tag;
    union {
        uint32_t counted;
        wit_string said;
    } as;
} demo_guest_journal_entry;
static_assert(sizeof(demo_guest_journal_entry) == 12 && alignof(demo_guest_journal_entry) == 4, "layout");
static_assert(offsetof(demo_guest_journal_entry, as) == 4, "layout");
#endif /* WIT_INTERFACE_DEMO_GUEST_JOURNAL */

/* ---- imports of demo:guest/club@0.1.0 */

#ifndef WIT_RESULT_U32_STRING_DEFINED
#define WIT_RESULT_U32_STRING_DEFINED
typedef struct {
    uint8_t tag;
    union {
        uint32_t ok;
        wit_string error;
    } as;
} wit_result_u32_string;
static_assert(sizeof(wit_result_u32_string) == 12 && alignof(wit_result_u32_string) == 4, "layout");
static_assert(offsetof(wit_result_u32_string, as) == 4, "layout");
#endif /* WIT_RESULT_U32_STRING_DEFINED */

/* demo:guest/journal@0.1.0 write: func(entry: entry) -> result<u32, string> */
__attribute__((import_module("demo:guest/journal@0.1.0"), import_name("write")))
void wit_import_demo_guest_journal_write(uint32_t, uint32_t, uint32_t, uint32_t);

static inline wit_result_u32_string demo_guest_journal_write(demo_guest_journal_entry in_entry) {
    wit_flat flats[4] = {0};
    wit_result_u32_string value;
    wit_put(flats, 0, in_entry.tag);
    switch (in_entry.tag) {
    case DEMO_GUEST_JOURNAL_ENTRY_COUNTED:
        wit_put(flats, 1, in_entry.as.counted);
        break;
    case DEMO_GUEST_JOURNAL_ENTRY_SAID:
        wit_put(flats, 1, in_entry.as.said.address);
        wit_put(flats, 2, in_entry.as.said.length);
        break;
    default:
        break;
    }
    wit_put(flats, 3, (uintptr_t)&value);
    wit_import_demo_guest_journal_write(wit_i32(&flats[0]), wit_i32(&flats[1]), wit_i32(&flats[2]), wit_i32(&flats[3]));
    return value;
}

/* demo:guest/club@0.1.0 today: func() -> string */
__attribute__((import_module("$root"), import_name("today")))
void wit_import_demo_guest_club_today(uint32_t);

static inline wit_string demo_guest_club_today(void) {
    wit_flat flats[1] = {0};
    wit_string value;
    wit_put(flats, 0, (uintptr_t)&value);
    wit_import_demo_guest_club_today(wit_i32(&flats[0]));
    return value;
}

/* ---- exports of demo:guest/club@0.1.0, which the guest has to define */

#ifndef WIT_LIST_DEMO_GUEST_ROSTER_MEMBER_DEFINED
#define WIT_LIST_DEMO_GUEST_ROSTER_MEMBER_DEFINED
typedef struct {
    uint32_t address;
    uint32_t length;
} wit_list_demo_guest_roster_member;
static_assert(sizeof(wit_list_demo_guest_roster_member) == 8 && alignof(wit_list_demo_guest_roster_member) == 4, "layout");

static inline demo_guest_roster_member *wit_list_demo_guest_roster_member_elements(wit_list_demo_guest_roster_member list) {
    return (demo_guest_roster_member *)(uintptr_t)list.address;
}

static inline wit_list_demo_guest_roster_member wit_list_demo_guest_roster_member_of(const demo_guest_roster_member *elements, size_t length) {
    wit_list_demo_guest_roster_member list = {(uint32_t)(uintptr_t)elements, (uint32_t)length};
    return list;
}

static inline wit_list_demo_guest_roster_member wit_list_demo_guest_roster_member_new(size_t length) {
    void *block = wit_allocate_all(alignof(demo_guest_roster_member), sizeof(demo_guest_roster_member), length);
    return wit_list_demo_guest_roster_member_of((const demo_guest_roster_member *)block, length);
}
#endif /* WIT_LIST_DEMO_GUEST_ROSTER_MEMBER_DEFINED */

#ifndef WIT_LIST_STRING_DEFINED
#define WIT_LIST_STRING_DEFINED
typedef struct {
    uint32_t address;
    uint32_t length;
} wit_list_string;
static_assert(sizeof(wit_list_string) == 8 && alignof(wit_list_string) == 4, "layout");

static inline wit_string *wit_list_string_elements(wit_list_string list) {
    return (wit_string *)(uintptr_t)list.address;
}

static inline wit_list_string wit_list_string_of(const wit_string *elements, size_t length) {
    wit_list_string list = {(uint32_t)(uintptr_t)elements, (uint32_t)length};
    return list;
}

static inline wit_list_string wit_list_string_new(size_t length) {
    void *block = wit_allocate_all(alignof(wit_string), sizeof(wit_string), length);
    return wit_list_string_of((const wit_string *)block, length);
}
#endif /* WIT_LIST_STRING_DEFINED */

/* demo:guest/roster@0.1.0 regulars: func(members: list<member>, visits: u32) -> list<string> */
wit_list_string exports_demo_guest_roster_regulars(wit_list_demo_guest_roster_member in_members, uint32_t in_visits);

/* demo:guest/club@0.1.0 entries: func() -> u32 */
uint32_t exports_demo_guest_club_entries(void);

/* ---- what the linker and the host need: define WIT_IMPLEMENTATION in one file before the header is included */

#ifdef WIT_IMPLEMENTATION

/* Blocks one after another, in memory that is added for them. Define WIT_OWN_BLOCKS to define wit_allocate, wit_enter,
 * wit_leave and cabi_realloc in another way. */
#ifndef WIT_OWN_BLOCKS
static uintptr_t wit_first, wit_next, wit_end;
static unsigned wit_calls;

/* Adds memory for so many bytes. If it does not lie right behind what was added before, that is not used any more. */
static void wit_grow(uint64_t size) {
    size_t before = __builtin_wasm_memory_size(0);
    if (before * 65536 != wit_end) {
        size += wit_end - wit_first;
        wit_first = wit_next = before * 65536;
    }
    size_t pages = (size_t)(size / 65536) + 1;
    if (__builtin_wasm_memory_grow(0, pages) != before)
        __builtin_trap();
    wit_end = (before + pages) * 65536;
}

void *wit_allocate(size_t align, size_t size) {
    uint64_t at = ((uint64_t)wit_next + align - 1) / align * align;
    if (at + size > wit_end) {
        wit_grow((uint64_t)align + size);
        at = ((uint64_t)wit_next + align - 1) / align * align;
    }
    wit_next = (uintptr_t)(at + size);
    return (void *)(uintptr_t)at;
}

void wit_enter(void) {
    wit_calls++;
}

void wit_leave(void) {
    if (--wit_calls == 0)
        wit_next = wit_first;
}

/* What the host asks for blocks. */
__attribute__((export_name("cabi_realloc")))
void *cabi_realloc(void *old, size_t old_size, size_t align, size_t size) {
    char *block = (char *)wit_allocate(align, size);
    for (size_t place = 0; place < old_size && place < size; place++)
        block[place] = ((const char *)old)[place];
    return block;
}
#endif /* WIT_OWN_BLOCKS */

__attribute__((export_name("demo:guest/roster@0.1.0#regulars")))
uint32_t wit_export_demo_guest_roster_regulars(uint32_t flat0, uint32_t flat1, uint32_t flat2) {
    static wit_list_string value;
    wit_flat flats[3] = {flat0, flat1, flat2};
    wit_list_demo_guest_roster_member in_members;
    uint32_t in_visits;
    in_members.address = wit_i32(&flats[0]);
    in_members.length = wit_i32(&flats[1]);
    in_visits = (uint32_t)wit_i32(&flats[2]);
    wit_enter();
    value = exports_demo_guest_roster_regulars(in_members, in_visits);
    return (uint32_t)(uintptr_t)&value;
}

__attribute__((export_name("cabi_post_demo:guest/roster@0.1.0#regulars")))
void wit_post_demo_guest_roster_regulars(uint32_t value) {
    (void)value;
    wit_leave();
}

__attribute__((export_name("entries")))
uint32_t wit_export_demo_guest_club_entries(void) {
    uint32_t value;
    wit_flat flats[1] = {0};
    wit_enter();
    value = exports_demo_guest_club_entries();
    wit_leave();
    wit_put(flats, 0, value);
    return wit_i32(&flats[0]);
}
#endif /* WIT_IMPLEMENTATION */

#ifdef __cplusplus
}
#endif

/* Short names: without the package's, if nothing else has them. Define WIT_SHORT_NAMES to have them. */
#ifdef WIT_SHORT_NAMES
typedef demo_guest_roster_member roster_member;
typedef demo_guest_journal_entry journal_entry;
#define JOURNAL_ENTRY_OPENED DEMO_GUEST_JOURNAL_ENTRY_OPENED
#define JOURNAL_ENTRY_COUNTED DEMO_GUEST_JOURNAL_ENTRY_COUNTED
#define JOURNAL_ENTRY_SAID DEMO_GUEST_JOURNAL_ENTRY_SAID
#define journal_write(...) demo_guest_journal_write(__VA_ARGS__)
#define club_today(...) demo_guest_club_today(__VA_ARGS__)
typedef wit_list_demo_guest_roster_member wit_list_roster_member;
#define wit_list_roster_member_elements(...) wit_list_demo_guest_roster_member_elements(__VA_ARGS__)
#define wit_list_roster_member_of(...) wit_list_demo_guest_roster_member_of(__VA_ARGS__)
#define wit_list_roster_member_new(...) wit_list_demo_guest_roster_member_new(__VA_ARGS__)
#define exports_roster_regulars(...) exports_demo_guest_roster_regulars(__VA_ARGS__)
#define exports_club_entries(...) exports_demo_guest_club_entries(__VA_ARGS__)
#endif /* WIT_SHORT_NAMES */

#endif /* WIT_DEMO_GUEST_CLUB_H */
