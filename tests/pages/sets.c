/* Two packages, of which one depends on the other, and which a page opens. */
#include <string.h>
#include <witcall.h>

int main(void) {
    const char clocks[] = "package a:clocks@1.0.0; interface wall { type time = u64; }";
    const char app[] = "package a:app; interface notes { use a:clocks/wall@1.0.0.{time}; at: func() -> time; }";
    const size_t clocks_len = sizeof clocks - 1, app_len = sizeof app - 1;
    witcall_package package = WITCALL_NONE;
    uint8_t inputs[sizeof clocks + sizeof app];
    memcpy(inputs, clocks, clocks_len);
    memcpy(inputs + clocks_len, app, app_len);
@BLOCK@
    witcall_close(&package);
    return opened.code != WITCALL_DONE;
}
