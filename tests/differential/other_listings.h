/* Listings for candidate_line that no list of codes has, and numbers that are no key. */
#ifndef OTHER_LISTINGS_H
#define OTHER_LISTINGS_H

#include "run.h"

/* Drawn bytes, LFs many, few or none; lines and listings too long for one byte of a count, and for
   two. */
void other_listings(struct run *run);

/* Numbers near a power of two: one cut to fewer bits would be a key. */
void other_keys(struct run *run, const struct range *listings);

#endif
