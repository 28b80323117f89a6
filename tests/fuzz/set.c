/* Sets of a stranger: the first byte is how many inputs, then two bytes for each say its length, and their bytes
 * follow. Each set is opened or refused; names are looked for in it. */
#include "opened.h"
#include "sets.h"

/* Names that a stranger gives, of which one may be there. */
static void check_names(witcall_package *package, input in) {
    input interface = part(&in, take(&in, 1)), function = part(&in, take(&in, 1));
    witcall_row_info row;
    witcall_status found = witcall_find(package, interface.at, interface.len, function.at, function.len);
    check_status(found);
    HOLDS(is_done(found) || is_refused(found, WITCALL_NO_FUNCTION));
    if (is_done(found))
        HOLDS(is_done(witcall_row(package, found.count, &row)) && row.type.kind == WITCALL_FUNCTION);
    uint8_t name[600];
    for (uint32_t kind = 0; kind < 4; kind++)
        for (uint32_t i = 0; i < 100; i++) {
            witcall_status told = witcall_owner_name(package, kind, i, name, sizeof name);
            if (is_refused(told, WITCALL_NOT_THERE))
                break;
            HOLDS(is_done(told) || is_refused(told, WITCALL_NO_ROOM));
        }
}

int LLVMFuzzerTestOneInput(const uint8_t *data, size_t len) {
    input in = {data, len < FENCED ? len : FENCED};
    lengths_of_set set = lengths_of(&in);
    uint8_t *bytes = fenced(0, in.len, true);
    if (in.len)
        memcpy(bytes, in.at, in.len);
    size_t *lengths = fenced(1, set.count * sizeof *lengths, true);
    if (set.count)
        memcpy(lengths, set.lengths, set.count * sizeof *lengths);
    witcall_package package = WITCALL_NONE;
    witcall_status status = witcall_open_set(bytes, in.len, lengths, set.count, &package);
    mark(2, (uint32_t)set.count);
    HOLDS(is_refused(status, WITCALL_BAD_LENGTHS) == (set.sum != in.len || set.count == 0));
    if (is_refused(status, WITCALL_BAD_LENGTHS))
        HOLDS(!package.at && !package.is_open);
    else
        check_opened(&package, status, bytes, lengths, set.count - 1);
    if (is_done(status))
        check_names(&package, in);
    witcall_close(&package);
    return 0;
}
