/* Numbers drawn from a seed, the same on every machine. */
#ifndef DRAW_H
#define DRAW_H

#include <stdint.h>

/* Where the draws of one case begin: a case can be drawn without those before it. */
uint64_t draws_of(uint64_t seed, uint64_t number);

uint64_t draw(uint64_t *state);

/* A number below `limit`. */
uint32_t draw_below(uint64_t *state, uint32_t limit);

/* A set of the numbers below `limit`, a bit for each, and not empty. Where many are drawn from all
   numbers they all come; so that fewer come too, half of the sets are whole and half are any. */
uint32_t draw_set(uint64_t *state, unsigned limit);

#endif
