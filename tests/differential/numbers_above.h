/* Numbers that are too large for a call, where a host may hand over any of 32 bits. */
#ifndef NUMBERS_ABOVE_H
#define NUMBERS_ABOVE_H

#include "run.h"

typedef void refuser(struct run *run, int64_t number);

/* From `least` up, around each power of two, so that a number cut to fewer bits shows. */
void numbers_above(struct run *run, int64_t least, refuser *refuse);

/* What is no class, as a root and as a bass: every byte above 11, and numbers above a byte. */
void classes_above(struct run *run, refuser *refuse_root, refuser *refuse_bass);

#endif
