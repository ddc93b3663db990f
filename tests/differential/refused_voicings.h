/* Voicings that are refused, each refusal before those behind it in paper 01's table, as paper 02
   amends it. */
#ifndef REFUSED_VOICINGS_H
#define REFUSED_VOICINGS_H

#include "voicings.h"

/* Of either function. */
void refused_voicings(struct run *run, chord_maker *maker);

#endif
