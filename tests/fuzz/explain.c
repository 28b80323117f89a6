/* What is wrong with texts and binaries of a stranger, in the form of set.c. A document is JSON of faults, each of an
 * input that is there; it is the same in an array of just its length. Nothing is wrong with a set of texts that opens. */
#include "opened.h"
#include "sets.h"

/* Whether a document is an array of objects, by its marks outside words, and each file is the index of an input. */
static void check_faults(const uint8_t *json, size_t len, size_t count) {
    static const char FILE_OF[] = "{\"file\":\"";
    size_t depth = 0;
    bool is_word = false;
    HOLDS(len >= 3 && json[0] == '[' && memcmp(json + len - 2, "]\n", 2) == 0);
    for (size_t i = 0; i < len; i++) {
        HOLDS(json[i] >= ' ' || json[i] == '\n');
        if (is_word && json[i] == '\\')
            i++;
        else if (json[i] == '"')
            is_word = !is_word;
        else if (!is_word && strchr("{[", json[i]))
            depth++;
        else if (!is_word && strchr("}]", json[i]))
            HOLDS(depth-- > 0);
        if (!is_word && len - i > sizeof FILE_OF && memcmp(json + i, FILE_OF, sizeof FILE_OF - 1) == 0)
            HOLDS(strtoul((const char *)json + i + sizeof FILE_OF - 1, NULL, 10) < count);
    }
    HOLDS(depth == 0 && !is_word);
}

static witcall_status explain(input bytes, const size_t *lengths, size_t count, input array) {
    return witcall_explain(bytes.at, bytes.len, lengths, count, (uint8_t *)array.at, array.len);
}

/* The document in an array of just its length, and in one with less room, which says how much is needed. */
static void check_told(input bytes, const size_t *lengths, size_t count, uint32_t needed) {
    uint8_t *json = fenced(2, needed, true);
    witcall_status told = explain(bytes, lengths, count, (input){json, needed});
    HOLDS(is_done(told) && told.count == needed);
    check_faults(json, needed, count);
    const size_t room = hash(json, needed) % needed;
    told = explain(bytes, lengths, count, (input){fenced(3, room, true), room});
    HOLDS(is_refused(told, WITCALL_NO_ROOM) && told.count == needed);
}

/* Whether an input is a binary: the library opens its own ones, and explains those of other tools. */
static bool has_binary(input bytes, const size_t *lengths, size_t count) {
    static const uint8_t MAGIC[] = {0, 'a', 's', 'm'};
    for (size_t i = 0; i < count; i++) {
        const input one = part(&bytes, lengths[i]);
        if (one.len >= sizeof MAGIC && memcmp(one.at, MAGIC, sizeof MAGIC) == 0)
            return true;
    }
    return false;
}

static void check_set(input bytes, const size_t *lengths, size_t count, uint32_t needed) {
    witcall_package package = WITCALL_NONE;
    witcall_status opened = witcall_open_set(bytes.at, bytes.len, lengths, count, &package);
    mark(6, opened.number * 32 + bits(needed));
    HOLDS(!is_done(opened) || needed == 3 || has_binary(bytes, lengths, count));
    witcall_close(&package);
}

int LLVMFuzzerTestOneInput(const uint8_t *data, size_t len) {
    input in = {data, len < FENCED ? len : FENCED};
    lengths_of_set set = lengths_of(&in);
    uint8_t *bytes = fenced(0, in.len, true);
    if (in.len)
        memcpy(bytes, in.at, in.len);
    size_t *lengths = fenced(1, set.count * sizeof *lengths, true);
    if (set.count)
        memcpy(lengths, set.lengths, set.count * sizeof *lengths);
    const input given = {bytes, in.len};
    witcall_status counted = explain(given, lengths, set.count, (input){NULL, 0});
    check_status(counted);
    const bool is_bad = set.sum != in.len || set.count == 0;
    HOLDS(is_refused(counted, WITCALL_BAD_LENGTHS) == is_bad);
    if (is_bad)
        return 0;
    HOLDS(is_refused(counted, WITCALL_NO_ROOM) && counted.count <= FENCED);
    mark(5, bits(counted.count));
    check_told(given, lengths, set.count, counted.count);
    check_set(given, lengths, set.count, counted.count);
    return 0;
}
