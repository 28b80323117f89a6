/* A package that is open, whose functions a page prints. */
#include <stdio.h>
#include <witcall.h>
#include "examples/c/shop.h"

int main(void) {
    witcall_package package = WITCALL_NONE;
    if (witcall_open((const uint8_t *)demo_shop_text, sizeof demo_shop_text - 1, &package).code != WITCALL_DONE)
        return 1;
@BLOCK@
    witcall_close(&package);
    return 0;
}
