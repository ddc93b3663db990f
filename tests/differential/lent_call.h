/* A call of the library with all its ranges lent, the inputs as the output. */
#ifndef LENT_CALL_H
#define LENT_CALL_H

#include "lent.h"
#include "run.h"

enum { MOST_LENT = 1 << 17 }; /* bytes of one range */

/* Makes the call with its ranges in this place, the output holding `old`, and tells when it
   alters an input; false, and told, when it faulted. */
bool call_lent(struct run *run, const struct call *call, enum place place, const uint8_t *old,
               int64_t *got);

/* The output last lent, where it stands. */
const uint8_t *lent_output(void);

/* Tells when the output last lent is not `want`, followed by what it held. */
void expect_output(struct run *run, const struct call *call, const uint8_t *want, size_t length);

#endif
