/* Lists what packages have: their functions with the offsets of the parameters, and their types with the places of what stands in them. What
 * the library tells of shop.wit is compared with the structs of shop.h, which wit-explain bind c makes of that package. The lines of the other
 * package are compared with lists.expected, whose numbers are those of CanonicalABI.md, "Alignment" and "Element Size".
 */
#include "shop.h"
#include "witcall.h"
#include <stdbool.h>
#include <stdio.h>
#include <stdlib.h>
#include <string.h>

#define BYTES(text) (const uint8_t *)(text), strlen(text)
#define ROOM 64

static const char TEXT[] =
    "package a:b@1.0.0;"
    "interface c {"
    "  type size = u64;"
    "  record point { x: s8, y: size }"
    "  enum color { red, green, blue }"
    "  variant shape { nothing, dot(point), line(tuple<u8, char>) }"
    "  flags rights { read, write }"
    "  f: func(p: shape, q: option<string>) -> result<list<color>, bool>;"
    "}"
    "interface d {"
    "  use c.{point as place};"
    "  g: func(x: place);"
    "}"
    "world w {"
    "  import h: func() -> u8;"
    "  export d;"
    "}";

static const char *const KINDS[] = {
    "no type", "bool", "s8", "u8", "s16", "u16", "s32", "u32", "s64", "u64", "char", "string",
    "list", "option", "result", "tuple", "record", "variant", "enum", "flags", "alias", "use", "function"};

static witcall_package package = WITCALL_NONE;
static bool failed = false;

/* Ends the program where the library says no. */
static void check(witcall_status status) {
    uint8_t line[WITCALL_MAX_STATUS_LINE];
    witcall_status told = witcall_status_line(status, line, sizeof line);
    if (status.code == WITCALL_DONE)
        return;
    printf("%.*s\n", (int)told.count, (const char *)line);
    exit(1);
}

static void open_text(const char *text) {
    witcall_close(&package);
    check(witcall_open(BYTES(text), &package));
}

/* ---- every line ---- */

static void print_type(witcall_type_info type) {
    printf("%s", KINDS[type.kind]);
    if (type.kind != WITCALL_NO_TYPE)
        printf(" size %u align %u", type.size, type.align);
}

static void print_member(uint32_t row, uint32_t index) {
    uint8_t label[WITCALL_MAX_LABEL];
    witcall_member_info member;
    check(witcall_member(&package, row, index, &member));
    witcall_status told = witcall_member_name(&package, row, index, label, sizeof label);
    check(told);
    printf("  %u %.*s at %u: ", index, (int)told.count, (const char *)label, member.offset);
    print_type(member.type);
    printf("\n");
}

/* Where a row has its name, and the name. */
static void print_name(uint32_t number, witcall_row_info row) {
    uint8_t owner[ROOM], name[WITCALL_MAX_LABEL];
    if (row.owner_kind == WITCALL_NO_OWNER)
        return;
    witcall_status told_owner = witcall_owner_name(&package, row.owner_kind, row.owner, owner, ROOM);
    check(told_owner);
    witcall_status told = witcall_row_name(&package, number, name, sizeof name);
    check(told);
    printf(
        "%s %.*s: %.*s: ", row.owner_kind == WITCALL_WORLD ? "world" : "interface", (int)told_owner.count, (const char *)owner,
        (int)told.count, (const char *)name);
}

static void print_row(uint32_t number, witcall_row_info row) {
    print_name(number, row);
    print_type(row.type);
    if (row.target.kind != WITCALL_NO_TYPE) {
        printf(", to ");
        print_type(row.target);
    }
    printf("\n");
    for (uint32_t index = 0; index < row.members; index++)
        print_member(number, index);
}

static void print_rows(void) {
    witcall_row_info row;
    for (uint32_t number = 0; witcall_row(&package, number, &row).code == WITCALL_DONE; number++)
        print_row(number, row);
}

/* ---- functions alone, as docs/C.md has them ---- */

static void print_functions(void) {
    uint8_t name[WITCALL_MAX_LABEL];
    witcall_row_info row;
    witcall_member_info parameter;
    for (uint32_t number = 0; witcall_row(&package, number, &row).code == WITCALL_DONE; number++) {
        if (row.type.kind != WITCALL_FUNCTION)
            continue;
        witcall_status told = witcall_row_name(&package, number, name, sizeof name);
        printf("%.*s\n", (int)told.count, (const char *)name);
        for (uint32_t i = 0; i < row.members; i++) {
            witcall_member(&package, number, i, &parameter);
            told = witcall_member_name(&package, number, i, name, sizeof name);
            printf("  %.*s at %u\n", (int)told.count, (const char *)name, parameter.offset);
        }
    }
}

/* ---- shop.wit beside shop.h ---- */

static void same(const char *what, uint32_t found, uint32_t wanted) {
    if (found == wanted)
        return;
    printf("FAILED %s: %u, wanted %u\n", what, found, wanted);
    failed = true;
}

/* The row of this name. */
static witcall_row_info named(const char *name) {
    uint8_t found[WITCALL_MAX_LABEL];
    witcall_row_info row;
    for (uint32_t number = 0; witcall_row(&package, number, &row).code == WITCALL_DONE; number++) {
        witcall_status told = witcall_row_name(&package, number, found, sizeof found);
        check(told);
        if (told.count == strlen(name) && memcmp(found, name, told.count) == 0)
            return row;
    }
    printf("FAILED no row %s\n", name);
    exit(1);
}

static witcall_member_info member(witcall_row_info row, uint32_t index) {
    witcall_member_info found;
    check(witcall_member(&package, row.type.row, index, &found));
    return found;
}

#define SAME_TYPE(row, layout) \
    same(#layout " size", (row).type.size, sizeof(layout)), same(#layout " align", (row).type.align, alignof(layout))
#define SAME_MEMBER(row, index, layout, field, wanted) \
    same(#layout " " #field, member(row, index).offset, offsetof(layout, field)), \
    same(#layout " " #field " size", member(row, index).type.size, sizeof(((layout *)0)->field)), \
    same(#layout " " #field " kind", member(row, index).type.kind, wanted)

static void compare_shop(void) {
    witcall_row_info line = named("line"), receipt = named("receipt"), order = named(DEMO_SHOP_DESK_ORDER_NAME), lines;
    SAME_TYPE(line, demo_shop_desk_line);
    SAME_MEMBER(line, 0, demo_shop_desk_line, item, WITCALL_STRING);
    SAME_MEMBER(line, 1, demo_shop_desk_line, count, WITCALL_U16);
    SAME_TYPE(receipt, demo_shop_desk_receipt);
    SAME_MEMBER(receipt, 0, demo_shop_desk_receipt, number, WITCALL_U32);
    SAME_MEMBER(receipt, 1, demo_shop_desk_receipt, lines, WITCALL_LIST);
    SAME_MEMBER(receipt, 2, demo_shop_desk_receipt, note, WITCALL_STRING);
    SAME_TYPE(order, demo_shop_desk_order_parameters);
    SAME_MEMBER(order, 0, demo_shop_desk_order_parameters, customer, WITCALL_STRING);
    SAME_MEMBER(order, 1, demo_shop_desk_order_parameters, lines, WITCALL_LIST);
    same("the result of order", order.target.row, receipt.type.row);
    check(witcall_row(&package, member(order, 1).type.row, &lines));
    same("the elements of lines", lines.target.row, line.type.row);
    witcall_status found = witcall_find(&package, BYTES(DEMO_SHOP_DESK_INTERFACE), BYTES(DEMO_SHOP_DESK_ORDER_NAME));
    same("the number of order", found.count, order.type.row);
}

int main(void) {
    open_text(demo_shop_text);
    print_functions();
    compare_shop();
    open_text(TEXT);
    print_rows();
    witcall_close(&package);
    return failed;
}
