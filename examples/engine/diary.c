/* The component that reads a diary. It imports the clock, and the function that looks in the diary. */
#include "diary.h"

__attribute__((import_module("wasi:clocks/wall-clock@0.2.0"), import_name("now"))) void now(datetime *area);

__attribute__((import_module("demo:diary/notes@1.0.0"), import_name("last-before"))) void last_before(
    uint64_t seconds, uint32_t nanoseconds, const note *notes, size_t notes_len, maybe_note *area);

/* Says the last note that was written before now. As a fault, it hands over a text that is no UTF-8. */
__attribute__((export_name("run"))) void run(void) {
    note notes[] = {{{7, 500}, {"tea", 3}}, {{30, 0}, {"rain", 4}}};
    if (fault == LIFT_ARGS)
        notes[0].words = (text){"\300\200", 2};
    datetime time;
    now(&time);
    maybe_note found;
    last_before(time.seconds, time.nanoseconds, notes, 2, &found);
    if (found.is == SOME)
        say(found.some.words.at, found.some.words.len);
}
