/* A caller's memory, in which a page reads a result. It has the block that a callee would have answered. */
#include <string.h>
#include <witcall.h>
#include "shop.h"

int main(void) {
    static uint8_t caller[256];
    const wit_string name = {16, 3};
    const wit_list_demo_shop_desk_line lines = {32, 1};
    const uint32_t area = 64, number = 4711;
    memcpy(caller + area, &number, sizeof number);
@BLOCK@
    return flats[0].bits != 16 || flats[DEMO_SHOP_DESK_ORDER_FLATS - 1].bits != area || back.number != number;
}
