/* The pairs of a voicing's call. */
#ifndef PAIRS_H
#define PAIRS_H

#include "call.h"

enum { CLASSES, INTERVALS, PAIR_RANGES };

/* As many as the shorter range has. */
size_t used_pairs(const struct call *call);

#endif
