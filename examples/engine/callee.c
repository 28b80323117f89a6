/* The component that prints: the core function of `print`, and its post-return. */
#include "press.h"

static outcome answer;

/* Puts the first bytes of one text behind those of another, whose block has room for them. */
static void append(char *into, size_t *len, text more, size_t most) {
    for (size_t i = 0; i < more.len && i < most; i++)
        into[(*len)++] = more.at[i];
}

static text words(const char *at, size_t len) {
    return (text){at, len};
}

/* What stands on a label: the title, the color and the first letters of the line. */
static text printed(text title, text color, text line) {
    char *at = block_of(1, (uint64_t)title.len + color.len + 16);
    size_t len = 0;
    append(at, &len, title, title.len);
    append(at, &len, words(" on ", 4), 4);
    append(at, &len, color, color.len);
    append(at, &len, words(": ", 2), 2);
    append(at, &len, line, 8);
    return words(at, len);
}

/* print: func(what: label, lines: list<string>, on: paper) -> outcome, as it is lifted: the parameters flat, and the
   result by its address. */
__attribute__((export_name("demo:labels/press#print"))) outcome *print(
    const char *title, size_t title_len, uint32_t copies, const text *lines, size_t lines_len, uint32_t paper,
    const char *color, size_t color_len) {
    if (copies == 0) {
        answer = (outcome){.is = REFUSED, .refused = words("no copies, no label", 19)};
        return &answer;
    }
    text on = paper == COLORED ? words(color, color_len) : words("plain", 5);
    text *all = block_of(4, (uint64_t)lines_len * sizeof(text));
    for (size_t i = 0; i < lines_len; i++)
        all[i] = printed(words(title, title_len), on, lines[i]);
    answer = (outcome){.is = PRINTED, .printed = {all, lines_len}};
    return &answer;
}

/* Once the caller has the answer, all blocks are free again. */
__attribute__((export_name("cabi_post_demo:labels/press#print"))) void print_post(outcome *done) {
    (void)done;
    top = 0;
}
