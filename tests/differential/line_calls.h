/* Calls of candidate_line on a flat listing and a sharp one. */
#ifndef LINE_CALLS_H
#define LINE_CALLS_H

#include "chosen_line.h"
#include "run.h"

/* Held to this line.. */
void expect_this_line(struct run *run, const struct range *listings, int64_t number, int64_t fifths,
                      const struct chosen_line *want);

/* ..or to the one that the rule gives. */
void expect_line(struct run *run, const struct range *listings, int64_t number, int64_t fifths);

/* This number and its neighbours, in a flat key and in a sharp one. */
void expect_lines_around(struct run *run, const struct range *listings, int64_t number);

/* Every number up to this one, and a drawn one, in all keys and one beyond on either side; and one
   of them with any number for a key. */
void expect_lines_up_to(struct run *run, const struct range *listings, int64_t number,
                        uint64_t state);

#endif
