/* The candidates of a list by both names of the black keys: the oracle has the flats, and a reader
   with a table of its own puts the sharps in their place. */
#ifndef SHARP_NAMES_H
#define SHARP_NAMES_H

#include "oracle_lines.h"

struct listings {
    struct lines flat, sharp;
};

/* Candidates with a tab between, as the oracle tells them. */
struct listings listings_in(const char *line);

#endif
