/* The types of press.wit as they stand in memory (`witcall layout press.wit`). */
#ifndef PRESS_H
#define PRESS_H
#include "guest.h"

typedef struct {
    const text *at;
    size_t len;
} texts;

enum { PLAIN, COLORED };
enum { PRINTED, REFUSED };

/* variant outcome { printed(list<string>), refused(string) }: its case, and then the payload. */
typedef struct {
    uint8_t is;
    union {
        texts printed;
        text refused;
    };
} outcome;
#endif
