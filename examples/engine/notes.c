/* The component that knows the time and looks in the diary: two core functions, and the post-return of one. */
#include "diary.h"
#include <stdbool.h>

static datetime time = {20, 0};
static maybe_note answer;

/* now: func() -> datetime, as it is lifted: the result by its address. */
__attribute__((export_name("wasi:clocks/wall-clock@0.2.0#now"))) datetime *now(void) {
    return &time;
}

static bool is_before(datetime one, datetime other) {
    return one.seconds < other.seconds || (one.seconds == other.seconds && one.nanoseconds < other.nanoseconds);
}

/* last-before: func(time: datetime, notes: list<note>) -> option<note>, as it is lifted: the parameters flat, and the
   result by its address. As a fault, it traps, or its answer has a case that an option doesn't have. */
__attribute__((export_name("demo:diary/notes@1.0.0#last-before"))) maybe_note *last_before(
    uint64_t seconds, uint32_t nanoseconds, const note *notes, size_t notes_len) {
    if (fault == BODY)
        __builtin_trap();
    datetime before = {seconds, nanoseconds};
    answer.is = NONE;
    for (size_t i = 0; i < notes_len; i++)
        if (is_before(notes[i].written, before) && (answer.is == NONE || is_before(answer.some.written, notes[i].written)))
            answer = (maybe_note){.is = SOME, .some = notes[i]};
    if (fault == LIFT_RESULT)
        answer.is = 2;
    return &answer;
}

/* Once the caller has the answer, all blocks are free again. */
__attribute__((export_name("cabi_post_demo:diary/notes@1.0.0#last-before"))) void last_before_post(maybe_note *done) {
    (void)done;
    if (fault == POST)
        __builtin_trap();
    top = 0;
}
