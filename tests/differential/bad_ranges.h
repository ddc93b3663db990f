/* Voicings refused for their range of keys (paper 02, Q-8): each pair of numbers up to some beyond
   MIDI's keys, and numbers that are too large. */
#ifndef BAD_RANGES_H
#define BAD_RANGES_H

#include "run.h"

void bad_ranges(struct run *run);

#endif
