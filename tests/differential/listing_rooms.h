/* The four calls that write the candidates of a list, by flats and by sharps, of any codes and of
   keys alone: each in the rooms that matter. */
#ifndef LISTING_ROOMS_H
#define LISTING_ROOMS_H

#include "run.h"
#include "sharp_names.h"

/* None up to one more than is needed. */
void expect_in_every_room(struct run *run, const struct range *list, const struct listings *want);

/* None, the exact room, its neighbours, a drawn one that is too small or just enough, and any. */
void expect_in_some_rooms(struct run *run, const struct range *list, const struct listings *want,
                          uint64_t state);

#endif
