/* What a call may answer, as far as its function's row and its own ranges tell. */
#ifndef ANSWERS_H
#define ANSWERS_H

#include "functions.h"

/* What a host gets of a refusal that tells a place. */
int64_t placed_answer(int64_t number, size_t place);

/* What it gets of any, with this place if it tells one. */
int64_t refusal_answer(const struct refusal *refusal, size_t place);

/* Which of the function's refusals a negative answer is; MOST_REFUSALS: none that may come. Where
   the call has a bad byte whose place is told, that refusal may, with just this place, and those
   before it. */
unsigned refusal_at(const struct call *call, int64_t answer);

/* Whether the header has this answer for such a call, and the words that stand in the output. */
bool may_answer(const struct call *call, int64_t answer, const uint8_t *out);

/* The bytes of the output that an answer says are written. */
size_t written_by(const struct call *call, int64_t answer);

#endif
