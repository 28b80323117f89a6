/* The lines of statuses, whatever their numbers are: short, printable, and written as far as there is room. */
#include "fuzz.h"

int LLVMFuzzerTestOneInput(const uint8_t *data, size_t len) {
    input in = {data, len};
    witcall_status status;
    status.code = take(&in, 4), status.number = take(&in, 4), status.step = take(&in, 4), status.count = take(&in, 4);
    const size_t room = take(&in, 1) % (WITCALL_MAX_STATUS_LINE + 1);
    const bool at_end = take(&in, 1) % 2;
    uint8_t *line = fenced(0, room, at_end), whole[WITCALL_MAX_STATUS_LINE];
    memset(line, 0xee, room);
    witcall_status told = witcall_status_line(status, whole, sizeof whole);
    HOLDS(is_done(told) && told.count <= sizeof whole);
    for (uint32_t i = 0; i < told.count; i++)
        HOLDS(whole[i] >= ' ' && whole[i] <= '~');
    witcall_status part = witcall_status_line(status, line, room);
    if (told.count > room)
        HOLDS(is_refused(part, WITCALL_NO_ROOM) && part.count == told.count);
    else
        HOLDS(is_same(part, told));
    for (size_t i = 0; i < room; i++)
        HOLDS(line[i] == (i < told.count ? whole[i] : 0xee));
    mark(status.code < 5 ? status.code : 5, status.number < 100 ? status.number : 100 + bits(status.number));
    mark(6 + (told.count > room), status.code == WITCALL_TRAP && status.step < 10 ? status.step : bits(status.count));
    return 0;
}
