/* The types of the diary as they stand in memory (`witcall layout --with clocks.wit .. app.wit` in examples/wasi). */
#ifndef DIARY_H
#define DIARY_H
#include "guest.h"

/* record datetime { seconds: u64, nanoseconds: u32 }, of wasi:clocks/wall-clock@0.2.0 */
typedef struct {
    uint64_t seconds;
    uint32_t nanoseconds;
} datetime;

/* record note { written: datetime, text: string }, of demo:diary/notes@1.0.0 */
typedef struct {
    datetime written;
    text words;
} note;

/* option<note>: its case, and then the payload. */
enum { NONE, SOME };
typedef struct {
    uint8_t is;
    note some;
} maybe_note;

_Static_assert(sizeof(datetime) == 16 && sizeof(note) == 24 && sizeof(maybe_note) == 32, "other sizes than the layout's");
#endif
