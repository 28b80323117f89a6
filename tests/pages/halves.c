/* A call of a string and a list, whose two halves a page shows. The callee answers the string that it is given. What the
 * allocators grant is known before, since the caller's text and its list are. */
#include <string.h>
#include <witcall.h>

static uint8_t caller[256], callee[256];

int main(void) {
    const uint8_t text[] = "package a:b; interface c { f: func(s: string, l: list<u32>) -> string; }";
    const uint8_t interface[] = "a:b/c", function[] = "f";
    const size_t text_len = sizeof text - 1, interface_len = sizeof interface - 1, function_len = sizeof function - 1;
    const size_t caller_len = sizeof caller, callee_len = sizeof callee;
    const uint64_t caller_limit = sizeof caller, callee_limit = sizeof callee;
    const witcall_value flats[] = {{0, 48}, {0, 3}, {0, 64}, {0, 2}, {0, 8}}, answer = {0, 8};
    const witcall_block blocks[] = {{1, 3, 16}, {4, 8, 32}};
    const uint32_t pair[] = {16, 3};
    witcall_value handed[WITCALL_MAX_VALUES], back[WITCALL_MAX_VALUES];
    witcall_request asked[2];
    memcpy(caller + 48, "tea", 3);
    memcpy(callee + 8, pair, sizeof pair);

@BLOCK@
    if (opened.code != WITCALL_DONE || found.code != WITCALL_DONE || package.is_open)
        return 1;
    return memcmp(caller + 8, pair, sizeof pair) || memcmp(caller + 16, "tea", 3);
}
