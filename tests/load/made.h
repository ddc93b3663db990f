/* Calls made from bytes, whatever those are: a fuzzer's or drawn ones. */
#ifndef MADE_H
#define MADE_H

#include "functions.h"

enum { MOST_INPUT = 600, MOST_ROOM = 1200, MOST_BYTES = 2 * MOST_INPUT };

struct made {
    struct call call; /* points into this: it is not to be copied */
    int64_t numbers[MOST_PARAMETERS];
    struct range inputs[MOST_INPUTS];
    uint8_t bytes[MOST_INPUTS][MOST_INPUT];
    bool nowhere; /* its empty ranges are NULL */
};

/* The first bytes choose the function and its numbers, mostly good ones; where the bytes end they
   begin again. */
void make_call(struct made *made, const uint8_t *data, size_t size);

/* The same from bytes drawn for this number, for one function. */
void draw_call(struct made *made, unsigned function, uint64_t number);

#endif
