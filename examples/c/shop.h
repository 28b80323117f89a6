/* demo:shop for C and C++ hosts of witcall, by wit-explain bind c. Do not edit. */
#ifndef WIT_DEMO_SHOP_H
#define WIT_DEMO_SHOP_H

#ifndef WIT_COMMON
#define WIT_COMMON
#include "witcall.h"
#include <assert.h>
#include <stddef.h>
#include <stdint.h>
#include <string.h>
#ifndef __cplusplus
#include <stdalign.h>
#endif

#if defined(__BYTE_ORDER__) && __BYTE_ORDER__ != __ORDER_LITTLE_ENDIAN__
#error "linear memories are little-endian, and these types are for hosts that are too"
#endif

/* A bool: 0 is false, all else is true. */
typedef uint8_t wit_bool;

/* A Unicode scalar value. */
typedef uint32_t wit_char;

/* length bytes of UTF-8 at an address of the memory. */
typedef struct {
    uint32_t address;
    uint32_t length;
} wit_string;

/* The tags of an option and of a result. */
enum { WIT_NONE, WIT_SOME };
enum { WIT_OK, WIT_ERROR };

static inline wit_string wit_string_load(const uint8_t *memory, uint32_t at) {
    wit_string value;
    memcpy(&value, memory + at, sizeof value);
    return value;
}

static inline void wit_string_store(uint8_t *memory, uint32_t at, wit_string value) {
    memcpy(memory + at, &value, sizeof value);
}

/* Makes each core value 0, of its kind: i for an i32, I for an i64. */
static inline void wit_begin(witcall_value *flats, const char *kinds) {
    for (size_t place = 0; kinds[place]; place++) {
        flats[place].kind = kinds[place] == 'I';
        flats[place].bits = 0;
    }
}

static inline void wit_put(witcall_value *flats, size_t place, uint64_t bits) {
    flats[place].bits = bits;
}

static inline uint32_t wit_i32(const witcall_value *flat) {
    return (uint32_t)flat->bits;
}

static inline uint64_t wit_i64(const witcall_value *flat) {
    return flat->bits;
}
#endif

/* The package demo:shop. */
#ifndef WIT_PACKAGE_DEMO_SHOP
#define WIT_PACKAGE_DEMO_SHOP
static const char demo_shop_text[] =
    "package demo:shop;\n"
    "\n"
    "interface desk {\n"
    "  record line {\n"
    "    item: string,\n"
    "    count: u16,\n"
    "  }\n"
    "  record receipt {\n"
    "    number: u32,\n"
    "    lines: list<line>,\n"
    "    note: string,\n"
    "  }\n"
    "  order: func(customer: string, lines: list<line>) -> receipt;\n"
    "}\n";
#endif /* WIT_PACKAGE_DEMO_SHOP */

/* ---- demo:shop/desk */

#ifndef WIT_INTERFACE_DEMO_SHOP_DESK
#define WIT_INTERFACE_DEMO_SHOP_DESK
#define DEMO_SHOP_DESK_INTERFACE "demo:shop/desk"

/* record demo:shop/desk line */
typedef struct {
    wit_string item;
    uint16_t count;
} demo_shop_desk_line;
static_assert(sizeof(demo_shop_desk_line) == 12 && alignof(demo_shop_desk_line) == 4, "layout");
static_assert(offsetof(demo_shop_desk_line, item) == 0, "layout");
static_assert(offsetof(demo_shop_desk_line, count) == 8, "layout");

static inline demo_shop_desk_line demo_shop_desk_line_load(const uint8_t *memory, uint32_t at) {
    demo_shop_desk_line value;
    memcpy(&value, memory + at, sizeof value);
    return value;
}

static inline void demo_shop_desk_line_store(uint8_t *memory, uint32_t at, demo_shop_desk_line value) {
    memcpy(memory + at, &value, sizeof value);
}

#ifndef WIT_LIST_DEMO_SHOP_DESK_LINE_DEFINED
#define WIT_LIST_DEMO_SHOP_DESK_LINE_DEFINED
typedef struct {
    uint32_t address;
    uint32_t length;
} wit_list_demo_shop_desk_line;
static_assert(sizeof(wit_list_demo_shop_desk_line) == 8 && alignof(wit_list_demo_shop_desk_line) == 4, "layout");

static inline wit_list_demo_shop_desk_line wit_list_demo_shop_desk_line_load(const uint8_t *memory, uint32_t at) {
    wit_list_demo_shop_desk_line value;
    memcpy(&value, memory + at, sizeof value);
    return value;
}

static inline void wit_list_demo_shop_desk_line_store(uint8_t *memory, uint32_t at, wit_list_demo_shop_desk_line value) {
    memcpy(memory + at, &value, sizeof value);
}

static inline demo_shop_desk_line wit_list_demo_shop_desk_line_get(const uint8_t *memory, wit_list_demo_shop_desk_line list, uint32_t place) {
    demo_shop_desk_line value;
    memcpy(&value, memory + list.address + (size_t)place * sizeof value, sizeof value);
    return value;
}

static inline void wit_list_demo_shop_desk_line_set(uint8_t *memory, wit_list_demo_shop_desk_line list, uint32_t place, demo_shop_desk_line value) {
    memcpy(memory + list.address + (size_t)place * sizeof value, &value, sizeof value);
}
#endif /* WIT_LIST_DEMO_SHOP_DESK_LINE_DEFINED */

/* record demo:shop/desk receipt */
typedef struct {
    uint32_t number;
    wit_list_demo_shop_desk_line lines;
    wit_string note;
} demo_shop_desk_receipt;
static_assert(sizeof(demo_shop_desk_receipt) == 20 && alignof(demo_shop_desk_receipt) == 4, "layout");
static_assert(offsetof(demo_shop_desk_receipt, number) == 0, "layout");
static_assert(offsetof(demo_shop_desk_receipt, lines) == 4, "layout");
static_assert(offsetof(demo_shop_desk_receipt, note) == 12, "layout");

static inline demo_shop_desk_receipt demo_shop_desk_receipt_load(const uint8_t *memory, uint32_t at) {
    demo_shop_desk_receipt value;
    memcpy(&value, memory + at, sizeof value);
    return value;
}

static inline void demo_shop_desk_receipt_store(uint8_t *memory, uint32_t at, demo_shop_desk_receipt value) {
    memcpy(memory + at, &value, sizeof value);
}

/* order: func(customer: string, lines: list<line>) -> receipt */
#define DEMO_SHOP_DESK_ORDER_NAME "order"
typedef struct {
    wit_string customer;
    wit_list_demo_shop_desk_line lines;
} demo_shop_desk_order_parameters;
static_assert(sizeof(demo_shop_desk_order_parameters) == 16 && alignof(demo_shop_desk_order_parameters) == 4, "layout");
static_assert(offsetof(demo_shop_desk_order_parameters, customer) == 0, "layout");
static_assert(offsetof(demo_shop_desk_order_parameters, lines) == 8, "layout");
#define DEMO_SHOP_DESK_ORDER_FLATS 5
#define DEMO_SHOP_DESK_ORDER_AREA_SIZE 20
#define DEMO_SHOP_DESK_ORDER_AREA_ALIGN 4

/* Makes the DEMO_SHOP_DESK_ORDER_FLATS core values of a call. area is a block of the caller's for the result,
 * of 20 bytes and alignment 4. */
static inline void demo_shop_desk_order_fill(witcall_value *flats, const demo_shop_desk_order_parameters *parameters, uint32_t area) {
    wit_begin(flats, "iiiii");
    wit_put(flats, 0, parameters->customer.address);
    wit_put(flats, 1, parameters->customer.length);
    wit_put(flats, 2, parameters->lines.address);
    wit_put(flats, 3, parameters->lines.length);
    wit_put(flats, 4, area);
}

/* Reads the result in its return area. */
static inline demo_shop_desk_receipt demo_shop_desk_order_read(const uint8_t *memory, uint32_t area) {
    demo_shop_desk_receipt value;
    memcpy(&value, memory + area, sizeof value);
    return value;
}

/* For the callee: reads the parameters out of the core values that witcall_enter gave. */
static inline demo_shop_desk_order_parameters demo_shop_desk_order_receive(const witcall_value *flats) {
    demo_shop_desk_order_parameters parameters;
    memset(&parameters, 0, sizeof parameters);
    parameters.customer.address = wit_i32(&flats[0]);
    parameters.customer.length = wit_i32(&flats[1]);
    parameters.lines.address = wit_i32(&flats[2]);
    parameters.lines.length = wit_i32(&flats[3]);
    return parameters;
}

/* For the callee: stores the result at area, a block of the callee's of 20 bytes and alignment 4, and makes
 * the core value that the callee returns. */
static inline witcall_value demo_shop_desk_order_answer(uint8_t *memory, uint32_t area, demo_shop_desk_receipt value) {
    witcall_value flats[1];
    memcpy(memory + area, &value, sizeof value);
    wit_begin(flats, "i");
    wit_put(flats, 0, area);
    return flats[0];
}
#endif /* WIT_INTERFACE_DEMO_SHOP_DESK */

/* Short names: without the package's, if nothing else has them. Define WIT_SHORT_NAMES to have them. */
#ifdef WIT_SHORT_NAMES
#define DESK_INTERFACE DEMO_SHOP_DESK_INTERFACE
typedef demo_shop_desk_line desk_line;
#define desk_line_load(...) demo_shop_desk_line_load(__VA_ARGS__)
#define desk_line_store(...) demo_shop_desk_line_store(__VA_ARGS__)
typedef wit_list_demo_shop_desk_line wit_list_desk_line;
#define wit_list_desk_line_load(...) wit_list_demo_shop_desk_line_load(__VA_ARGS__)
#define wit_list_desk_line_store(...) wit_list_demo_shop_desk_line_store(__VA_ARGS__)
#define wit_list_desk_line_get(...) wit_list_demo_shop_desk_line_get(__VA_ARGS__)
#define wit_list_desk_line_set(...) wit_list_demo_shop_desk_line_set(__VA_ARGS__)
typedef demo_shop_desk_receipt desk_receipt;
#define desk_receipt_load(...) demo_shop_desk_receipt_load(__VA_ARGS__)
#define desk_receipt_store(...) demo_shop_desk_receipt_store(__VA_ARGS__)
#define DESK_ORDER_NAME DEMO_SHOP_DESK_ORDER_NAME
typedef demo_shop_desk_order_parameters desk_order_parameters;
#define desk_order_fill(...) demo_shop_desk_order_fill(__VA_ARGS__)
#define desk_order_read(...) demo_shop_desk_order_read(__VA_ARGS__)
#define DESK_ORDER_FLATS DEMO_SHOP_DESK_ORDER_FLATS
#define desk_order_receive(...) demo_shop_desk_order_receive(__VA_ARGS__)
#define desk_order_answer(...) demo_shop_desk_order_answer(__VA_ARGS__)
#define DESK_ORDER_AREA_SIZE DEMO_SHOP_DESK_ORDER_AREA_SIZE
#define DESK_ORDER_AREA_ALIGN DEMO_SHOP_DESK_ORDER_AREA_ALIGN
#endif /* WIT_SHORT_NAMES */

#endif /* WIT_DEMO_SHOP_H */
