/* The component that has a press: it exports `print`, and imports `line`. */
#include "mill.h"

#define BEGINNING 8

__attribute__((import_module("demo:mill/words"), import_name("line"))) void line(uint32_t number, maybe_text *area);

static texts answer;

/* The title, and the beginning of a line. */
static text printed(text title, text line) {
    size_t begin = line.len < BEGINNING ? line.len : BEGINNING, len = 0;
    char *at = block_of(1, (uint64_t)title.len + 2 + begin);
    for (size_t i = 0; i < title.len; i++)
        at[len++] = title.at[i];
    at[len++] = ':';
    at[len++] = ' ';
    for (size_t i = 0; i < begin; i++)
        at[len++] = line.at[i];
    return (text){at, len};
}

/* print: func(title: string, lines: list<string>) -> list<string>, as it is lifted: the parameters flat, and the result
 * by its address. Without
   lines it traps. */
__attribute__((export_name("demo:mill/press#print"))) texts *print(
    const char *title, size_t title_len, const text *lines, size_t lines_len) {
    if (lines_len == 0)
        __builtin_trap();
    text *all = block_of(4, (uint64_t)lines_len * sizeof(text));
    for (size_t i = 0; i < lines_len; i++)
        all[i] = printed((text){title, title_len}, lines[i]);
    answer = (texts){all, lines_len};
    return &answer;
}

/* Once the caller has the answer, all blocks are free again. */
__attribute__((export_name("cabi_post_demo:mill/press#print"))) void print_post(texts *done) {
    (void)done;
    top = 0;
}

/* Says all lines that there are. */
__attribute__((export_name("proof"))) void proof(void) {
    maybe_text found = {.is = SOME};
    for (uint32_t number = 0; found.is == SOME; number++) {
        line(number, &found);
        if (found.is == SOME)
            say(found.some.at, found.some.len);
    }
}
