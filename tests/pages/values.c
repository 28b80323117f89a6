/* A guest that takes an order, which a page gives it with values of the host. It answers its customer as the note. */
#include "examples/c/shop.h"
#include <string.h>
#include <witcall_call.h>

static uint8_t bytes[256], guest_bytes[256];
static witcall_array_memory blocks = {guest_bytes, sizeof guest_bytes, 64};

static uint32_t run_order(void *context, const witcall_value *handed, uint32_t count, witcall_value *answer) {
    demo_shop_desk_order_parameters given = demo_shop_desk_order_receive(handed);
    demo_shop_desk_receipt made = {.number = count, .lines = given.lines, .note = given.customer};
    (void)context;
    *answer = demo_shop_desk_order_answer(guest_bytes, 32, made);
    return 1;
}

int main(void) {
    const wit_list_demo_shop_desk_line lines = {0, 0};
    const witcall_guest guest = witcall_array_guest(&blocks);
    const witcall_body body = {.run = run_order};
    witcall_package package = WITCALL_NONE;
    witcall_export order = {&package, 0, &guest, &body};
    witcall_value flats[DEMO_SHOP_DESK_ORDER_FLATS];
    if (witcall_open((const uint8_t *)demo_shop_text, sizeof demo_shop_text - 1, &package).code != WITCALL_DONE)
        return 1;
    order.func = witcall_find(&package, (const uint8_t *)DEMO_SHOP_DESK_INTERFACE, sizeof DEMO_SHOP_DESK_INTERFACE - 1,
                              (const uint8_t *)DEMO_SHOP_DESK_ORDER_NAME, sizeof DEMO_SHOP_DESK_ORDER_NAME - 1).count;
@BLOCK@
    witcall_close(&package);
    return status.code != WITCALL_DONE || receipt.number != 4 || receipt.note.length != 3 ||
           memcmp(bytes + receipt.note.address, "Ada", 3) != 0;
}
