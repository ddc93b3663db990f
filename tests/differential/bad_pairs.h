/* Voicings refused for a bad pair, which is told by its part and its place (paper 02, Q-1). */
#ifndef BAD_PAIRS_H
#define BAD_PAIRS_H

#include "voicings.h"

void bad_pairs(struct run *run, chord_maker *make);

#endif
