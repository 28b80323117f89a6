/* Binaries of other tools: each is opened or refused. What is opened is described, its rows are told, and nothing is
 * wrong with it; of what carries no package something is. The library opens the text that it writes again, if that
 * depends on no other package.
 *
 * Inputs are changed by their structure (LLVMFuzzerCustomMutator): sections are copied, left out, exchanged and changed
 * within, and their sizes are right then. Numbers are changed, or written longer than they need. Of types (component.h)
 * items are copied or left out, and their count is right then.
 */
#define _GNU_SOURCE
#include "component.h"
#include "opened.h"

size_t LLVMFuzzerMutate(uint8_t *data, size_t len, size_t room);
size_t LLVMFuzzerCustomMutator(uint8_t *data, size_t len, size_t room, unsigned seed);

#define HEAD 8
#define TYPES 7
#define MOST_SECTIONS 64

/* ---- sections ---- */

static section sections[MOST_SECTIONS + 1];
static size_t sections_len;

/* Reads the sections; false if the binary has a section that is none, or too many. */
static bool has_sections(const uint8_t *data, size_t len) {
    size_t at = HEAD;
    for (sections_len = 0; at < len; sections_len++) {
        uint32_t size;
        section *s = &sections[sections_len];
        const size_t of_size = at + 1 < len ? read_leb(data + at + 1, len - at - 1, &size) : 0;
        if (!of_size || sections_len == MOST_SECTIONS || size > len - at - 1 - of_size || size > sizeof s->content / 2)
            return false;
        s->id = data[at], s->len = size;
        memcpy(s->content, data + at + 1 + of_size, size);
        at += 1 + of_size + size;
    }
    return len > HEAD && sections_len > 0;
}

/* Writes the sections behind the head; as many as there is room for. */
static size_t write_sections(uint8_t *data, size_t room) {
    size_t at = HEAD;
    for (size_t i = 0; i < sections_len; i++) {
        const section *s = &sections[i];
        if (at + 6 + s->len > room)
            break;
        data[at++] = s->id;
        at += write_leb(data + at, (uint32_t)s->len, random_below(16) ? 1 : 1 + random_below(5));
        memcpy(data + at, s->content, s->len);
        at += s->len;
    }
    return at;
}

/* ---- changes ---- */

static void exchange(size_t one, size_t other) {
    sections[MOST_SECTIONS] = sections[one];
    sections[one] = sections[other];
    sections[other] = sections[MOST_SECTIONS];
}

/* Changes the number at a place: by one, to a small or to a great one, or only how it is written. */
static void change_number(section *s, size_t at) {
    static const uint32_t GREAT[] = {0x7f, 0x80, 0x3fff, 0xffff, 0x10000, 0x7fffffff, 0xffffffff};
    uint32_t number;
    uint8_t written[8];
    const size_t old = read_leb(s->content + at, s->len - at, &number), how = random_below(6);
    if (!old)
        return;
    if (how < 2)
        number += how ? 1 : UINT32_MAX;
    else if (how < 4)
        number = random_below(12);
    else if (how == 4)
        number = GREAT[random_below(sizeof GREAT / sizeof *GREAT)];
    splice(s, at, old, written, write_leb(written, number, how == 5 ? 2 + random_below(4) : 1));
}

static void change_sections(void) {
    const size_t one = random_below((uint32_t)sections_len), other = random_below((uint32_t)sections_len);
    section *s = &sections[one];
    switch (random_below(7)) {
        case 0:
            exchange(one, other);
            break;
        case 1:
            if (sections_len < MOST_SECTIONS)
                sections[sections_len++] = *s;
            break;
        case 2:
            sections_len--;
            exchange(one, sections_len);
            break;
        case 3:
            change_number(s, 0);
            break;
        case 4:
            s->id = (uint8_t)random_below(13);
            break;
        case 5:
            change_number(s, s->len ? random_below((uint32_t)s->len) : 0);
            break;
        default:
            s->len = LLVMFuzzerMutate(s->content, s->len, sizeof s->content / 2);
    }
}

/* Mostly a type is changed, if a section has some. */
static bool has_changed_a_type(void) {
    size_t at = 0;
    while (at < sections_len && sections[at].id != TYPES)
        at++;
    return random_below(6) && at < sections_len && has_changed_types(&sections[at]);
}

size_t LLVMFuzzerCustomMutator(uint8_t *data, size_t len, size_t room, unsigned seed) {
    state = seed;
    if (random_below(8) == 0 || !has_sections(data, len))
        return LLVMFuzzerMutate(data, len, room);
    for (uint32_t changes = 1 + random_below(4) / 3; changes && sections_len; changes--)
        if (!has_changed_a_type())
            change_sections();
    return write_sections(data, room);
}

/* ---- what has to hold ---- */

/* If the package's text depends on no other, it opens as a package that is written as the same text. */
static void check_text(witcall_package *package) {
    size_t len, again_len;
    uint8_t *text = written(package, witcall_to_text, 36, &len);
    witcall_package again = WITCALL_NONE;
    if (text && is_done(witcall_open(text, len, &again))) {
        uint8_t *same = written(&again, witcall_to_text, 36, &again_len);
        HOLDS(same && again_len == len && memcmp(same, text, len) == 0);
        free(same);
    }
    witcall_close(&again);
    free(text);
}

/* Marks the first words of a document of faults, without what names and numbers are in them. */
static void mark_words(const uint8_t *json, size_t len) {
    static const char MESSAGE[] = "\"message\":\"";
    const uint8_t *found = memmem(json, len, MESSAGE, sizeof MESSAGE - 1);
    uint32_t words = 0, left = 40;
    for (const uint8_t *at = found; found && left && at < json + len; at++, left--)
        words = words * 31 + (*at >= '0' && *at <= '9' ? '0' : *at);
    mark(words, 7);
}

/* Nothing is wrong with what is opened, and something with what carries no package. */
static void check_explained(const uint8_t *bytes, size_t len, witcall_status status) {
    static uint8_t json[65536];
    witcall_status told = witcall_explain(bytes, len, &len, 1, json, sizeof json);
    check_status(told);
    const bool is_empty = is_done(told) && told.count == 3 && memcmp(json, "[]\n", 3) == 0;
    if (is_done(told))
        mark_words(json, told.count);
    HOLDS(is_done(told) || is_refused(told, WITCALL_NO_ROOM));
    HOLDS(!is_done(status) || is_empty);
    HOLDS(!is_refused(status, 44) || !is_empty);
}

int LLVMFuzzerTestOneInput(const uint8_t *data, size_t len) {
    if (len > FENCED)
        return -1;
    uint8_t *bytes = fenced(0, len, true);
    if (len)
        memcpy(bytes, data, len);
    witcall_package package = WITCALL_NONE;
    witcall_status status = witcall_open_module(bytes, len, &package);
    check_status(status);
    mark_status(4, status);
    if (is_done(status)) {
        check_rows(&package);
        check_document(&package);
        check_text(&package);
    } else {
        check_line(&package, status);
        HOLDS(is_refused(witcall_to_text(&package, NULL, 0), WITCALL_NOT_OPEN));
    }
    check_explained(bytes, len, status);
    witcall_close(&package);
    HOLDS(!package.at && !package.is_open);
    return 0;
}
