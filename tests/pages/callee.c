/* A callee's memory, in which a page stores a result. */
#include <string.h>
#include <witcall.h>
#include "shop.h"

int main(void) {
    static uint8_t callee[256];
    const witcall_value handed[] = {{0, 16}, {0, 3}, {0, 32}, {0, 1}};
    const wit_string note = {48, 5};
    const uint32_t at = 64;
    uint32_t number;
@BLOCK@
    memcpy(&number, callee + at, sizeof number);
    return answer.bits != at || number != 4711 || given.customer.length != 3;
}
