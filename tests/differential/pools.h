/* Pools: the note classes and the intervals of a chord's tones, small ones by number, and drawn. */
#ifndef POOLS_H
#define POOLS_H

#include <stddef.h>
#include <stdint.h>

#include "lists.h" /* CLASSES */

enum {
    INTERVALS = 23,
    PAIRS = CLASSES * INTERVALS,
    SMALL_POOLS = 1 + PAIRS + PAIRS * PAIRS, /* of no tone, one and two */
    MOST_PAIRS = 16,
    LONGEST_RANGE = 20
};

struct pool {
    uint8_t classes[LONGEST_RANGE];
    uint8_t intervals[LONGEST_RANGE];
    size_t class_count;
    size_t interval_count;
};

/* Those of at most two tones, numbered from 0 to SMALL_POOLS - 1. */
struct pool small_pool(uint32_t number);

/* Ranges of these lengths. */
struct pool drawn_pool_of(uint64_t *state, size_t class_count, size_t interval_count);

/* At most MOST_PAIRS tones; in half of the pools one range is longer than the other. */
struct pool drawn_pool(uint64_t *state);

#endif
