/* The line that a key calls for, by the rule of request Q-9: a plain reader of the listings. */
#ifndef CHOSEN_LINE_H
#define CHOSEN_LINE_H

#include "functions.h"

/* The inputs of candidate_line, which are its answers too; its numbers; its words. */
enum { FLAT, SHARP, LISTINGS };
enum { NUMBER, FIFTHS, NUMBERS };
enum { LINE_START, LINE_LENGTH, LINE_WORDS };

enum { MOST_FIFTHS = 7 }; /* of a key, on either side */

struct chosen_line {
    int64_t listing;            /* FLAT or SHARP */
    uint64_t words[LINE_WORDS]; /* where in it the line begins, and its length without its LF */
};

/* What a call of candidate_line is to answer and to write. */
struct chosen_line chosen_line(const struct call *call);

#endif
