/* The component that has labels printed. What it imports as `print` is what its host makes of the press. */
#include "press.h"

#define LINE 60000

__attribute__((import_module("demo:labels/press"), import_name("print"))) void print(
    const char *title, size_t title_len, uint32_t copies, const text *lines, size_t lines_len, uint32_t paper,
    const char *color, size_t color_len, outcome *area);

static char first[LINE], second[LINE];

static void say_all(const outcome *area) {
    if (area->is == REFUSED) {
        say(area->refused.at, area->refused.len);
        return;
    }
    for (size_t i = 0; i < area->printed.len; i++)
        say(area->printed.at[i].at, area->printed.at[i].len);
}

/* Two long lines, which are more than the press's memory has room for, and then none at all. */
__attribute__((export_name("run"))) void run(void) {
    for (size_t i = 0; i < LINE; i++)
        first[i] = 'a' + i % 26, second[i] = 'z' - i % 26;
    text lines[] = {{first, LINE}, {second, LINE}, {"gr\303\274n", 5}};
    outcome area;
    print("tea", 3, 2, lines, 3, COLORED, "red", 3, &area);
    say_all(&area);
    print("tea", 3, 0, lines, 0, PLAIN, 0, 0, &area);
    say_all(&area);
}
