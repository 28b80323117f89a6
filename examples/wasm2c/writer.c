/* The component that has words: it exports `line`, and imports `print`. */
#include "mill.h"

#define LENGTH 61000
#define MOST_LINES 32

__attribute__((import_module("demo:mill/press"), import_name("print"))) void print(
    const char *title, size_t title_len, const text *lines, size_t lines_len, texts *area);

static char letters[LENGTH];
static maybe_text answer;

/* line: func(number: u32) -> option<string>, as it is lifted: the result by its address. */
__attribute__((export_name("demo:mill/words#line"))) maybe_text *line(uint32_t number) {
    static const char *const LINES[] = {"first line", "second line"};
    static const size_t LENGTHS[] = {10, 11};
    answer.is = number < 2 ? SOME : NONE;
    if (number < 2)
        answer.some = (text){LINES[number], LENGTHS[number]};
    return &answer;
}

/* Has so many lines printed, which are all the same bytes, and says what was. */
__attribute__((export_name("write"))) void write(uint32_t count) {
    text lines[MOST_LINES];
    texts printed;
    for (size_t i = 0; i < LENGTH; i++)
        letters[i] = (char)('a' + i % 26);
    for (size_t i = 0; i < MOST_LINES; i++)
        lines[i] = (text){letters + i, LENGTH - i};
    print("tea", 3, lines, count, &printed);
    for (size_t i = 0; i < printed.len; i++)
        say(printed.at[i].at, printed.at[i].len);
}
