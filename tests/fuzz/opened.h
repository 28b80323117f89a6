/* What has to hold of a package that was opened, and of one that was refused. */
#ifndef OPENED_H
#define OPENED_H
#include "fuzz.h"

/* What a package is written as, in an array of just its length that the caller frees. NULL if it would be too long. */
typedef witcall_status writer(witcall_package *package, uint8_t *bytes, size_t len);

static inline uint8_t *written(witcall_package *package, writer *write, uint32_t too_long, size_t *len) {
    witcall_status asked = write(package, NULL, 0);
    *len = asked.count;
    if (is_refused(asked, too_long))
        return NULL;
    HOLDS(is_refused(asked, WITCALL_NO_ROOM) && asked.count > 0);
    uint8_t *bytes = malloc(asked.count);
    if (!bytes)
        abort();
    witcall_status done = write(package, bytes, asked.count);
    HOLDS(is_done(done) && done.count == asked.count);
    return bytes;
}

/* What is written of a package opens behind the same packages, and is written as the same bytes again. */
static inline void check_again(
    witcall_package *package, writer *write, uint32_t too_long, const uint8_t *before, const size_t *lengths,
    size_t count) {
    size_t len, again_len, before_len = 0, all_lengths[65];
    uint8_t *bytes = written(package, write, too_long, &len);
    if (!bytes)
        return;
    for (size_t i = 0; i < count; i++)
        before_len += all_lengths[i] = lengths[i];
    all_lengths[count] = len;
    uint8_t *all = malloc(before_len + len);
    if (!all)
        abort();
    if (before_len)
        memcpy(all, before, before_len);
    memcpy(all + before_len, bytes, len);
    witcall_package again = WITCALL_NONE;
    HOLDS(is_done(witcall_open_set(all, before_len + len, all_lengths, count + 1, &again)));
    uint8_t *same = written(&again, write, too_long, &again_len);
    HOLDS(same && again_len == len && memcmp(same, bytes, len) == 0);
    witcall_close(&again);
    free(bytes), free(all), free(same);
}

/* The document of a package has a row for each of its table, and its marks are those of whole JSON. */
static inline void check_document(witcall_package *package) {
    static const char HEAD[] = "{\"packages\":[", KIND[] = "{\"kind\":";
    size_t len, rows = 0, depth = 0;
    witcall_row_info row;
    uint8_t *json = written(package, witcall_describe, UINT32_MAX, &len);
    HOLDS(len > sizeof HEAD && memcmp(json, HEAD, sizeof HEAD - 1) == 0);
    bool is_word = false;
    for (size_t i = 0; i < len; i++) {
        HOLDS(json[i] > ' ' && json[i] < 127 && json[i] != '\\');
        is_word ^= json[i] == '"';
        rows += len - i > sizeof KIND && memcmp(json + i, KIND, sizeof KIND - 1) == 0;
        if (!is_word && strchr("{[", json[i]))
            depth++;
        if (!is_word && strchr("]}", json[i]))
            HOLDS(depth-- > (i + 1 < len));
    }
    HOLDS(depth == 0 && !is_word);
    HOLDS(rows == 0 || is_done(witcall_row(package, (uint32_t)rows - 1, &row)));
    HOLDS(is_refused(witcall_row(package, (uint32_t)rows, &row), WITCALL_NOT_THERE));
    free(json);
}

static inline void check_type(witcall_package *package, witcall_type_info type) {
    witcall_row_info row;
    HOLDS(type.kind <= WITCALL_FUNCTION);
    HOLDS(type.kind == WITCALL_NO_TYPE || type.align == 1 || type.align == 2 || type.align == 4 || type.align == 8);
    HOLDS(type.kind == WITCALL_NO_TYPE ? !type.size : type.size % type.align == 0);
    if (type.kind >= WITCALL_LIST)
        HOLDS(
            is_done(witcall_row(package, type.row, &row)) && row.type.kind == type.kind && row.type.size == type.size);
}

/* Each row, with its names and members, and what follows the last one. */
static inline void check_rows(witcall_package *package) {
    uint8_t name[WITCALL_MAX_LABEL];
    witcall_row_info row;
    witcall_member_info member;
    uint32_t number = 0;
    for (; number < 2000 && is_done(witcall_row(package, number, &row)); number++) {
        check_type(package, row.type), check_type(package, row.target);
        HOLDS(row.type.row == number && row.type.kind >= WITCALL_LIST);
        HOLDS(is_done(witcall_row_name(package, number, name, sizeof name)));
        for (uint32_t i = 0; i < row.members && i < 200; i++) {
            HOLDS(is_done(witcall_member(package, number, i, &member)));
            HOLDS(is_done(witcall_member_name(package, number, i, name, sizeof name)));
            HOLDS((uint64_t)member.offset + member.type.size <= row.type.size || row.type.kind == WITCALL_FUNCTION);
            check_type(package, member.type);
        }
        HOLDS(is_refused(witcall_member(package, number, row.members, &member), WITCALL_NOT_THERE));
        mark(row.type.kind, bits(row.members) * 32 + row.target.kind);
    }
    if (number < 2000)
        HOLDS(is_refused(witcall_row_name(package, number, name, sizeof name), WITCALL_NOT_THERE));
}

/* The line of a refusal is that of its status, or begins as it does; it is marked without the place that it names. */
static inline void check_line(witcall_package *package, witcall_status status) {
    uint8_t line[4096], short_line[WITCALL_MAX_STATUS_LINE];
    witcall_status told = witcall_line(package, line, sizeof line);
    witcall_status short_told = witcall_status_line(status, short_line, sizeof short_line);
    HOLDS(is_done(short_told));
    if (is_refused(told, WITCALL_NO_ROOM))
        return;
    HOLDS(is_done(told) && told.count >= short_told.count && memcmp(line, short_line, short_told.count) == 0);
    uint32_t words = 0, end = status.number >= 40 && status.number < 50 ? 8 : told.count;
    for (uint32_t i = 0; i < end && i < told.count; i++)
        words = words * 31 + (line[i] >= '0' && line[i] <= '9' && i > 8 ? '0' : line[i]);
    mark(words, bits(status.number));
}

/* A handle after its opening: what it holds, and what each call says of it. `before` has the packages before the last
 * one. */
static inline void check_opened(
    witcall_package *package, witcall_status status, const uint8_t *before, const size_t *lengths, size_t count) {
    check_status(status);
    mark_status(1, status);
    if (is_done(status)) {
        check_rows(package);
        check_document(package);
        check_again(package, witcall_to_binary, 17, before, lengths, count);
        check_again(package, witcall_to_text, 36, before, lengths, count);
        HOLDS(witcall_line(package, NULL, 0).count == 0);
    } else {
        check_line(package, status);
        HOLDS(is_refused(witcall_to_text(package, NULL, 0), WITCALL_NOT_OPEN));
        HOLDS(is_refused(witcall_describe(package, NULL, 0), WITCALL_NOT_OPEN));
    }
}
#endif
