/* Sets as set.c and explain.c read them: the first byte is how many inputs, then two bytes for each say its length, and
 * their bytes follow. */
#ifndef SETS_H
#define SETS_H
#include "fuzz.h"

#define MOST_INPUTS 16

typedef struct {
    size_t lengths[MOST_INPUTS], count, sum;
} lengths_of_set;

/* The lengths as the input says them. In most cases the last one is the rest, so that they are good. */
static inline lengths_of_set lengths_of(input *in) {
    const uint32_t first = take(in, 1);
    lengths_of_set set = {.count = first % (MOST_INPUTS + 1)};
    for (size_t i = 0; i < set.count; i++)
        set.lengths[i] = take(in, 2);
    for (size_t i = 0; i < set.count; i++) {
        const size_t rest = in->len - set.sum;
        if (first < 240 && (i + 1 == set.count || set.lengths[i] > rest))
            set.lengths[i] = rest;
        set.sum += set.lengths[i];
    }
    return set;
}
#endif
