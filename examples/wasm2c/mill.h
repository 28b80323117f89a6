/* The types of mill.wit as they stand in memory. */
#ifndef MILL_H
#define MILL_H
#include "../engine/guest.h"

/* list<string> */
typedef struct {
    const text *at;
    size_t len;
} texts;

/* option<string>: its case, and then the payload. */
enum { NONE, SOME };
typedef struct {
    uint8_t is;
    text some;
} maybe_text;

_Static_assert(sizeof(texts) == 8 && sizeof(maybe_text) == 12, "other sizes than the layout's");
#endif
