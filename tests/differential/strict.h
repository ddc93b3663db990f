/* candidates_strict by the rule of paper 02, Q-6: a list with a code above 127 is refused with the
   first one's place, and any other is answered as by candidates; candidates_strict_sharp likewise,
   as by candidates_sharp. */
#ifndef STRICT_H
#define STRICT_H

#include "oracle_lines.h"
#include "run.h"

/* In this room, a call of either on a list whose candidates are these. */
void expect_strict_in(struct run *run, const struct call *call, const struct lines *want,
                      size_t room);

/* Lists that are refused, each for a code whose place is known here without a search. */
void bad_codes(struct run *run);

#endif
