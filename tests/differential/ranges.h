/* The ranges of keys for which the oracle has a copy of the Rust's voicing: a spread, then those
   that the seed of its build has drawn (tests/oracle/bounds.bash). */
#ifndef RANGES_H
#define RANGES_H

#include <stdint.h>

enum {
    SPREAD_RANGES = 0
#define SPREAD(lowest, highest) +1
#define DRAWN(lowest, highest)
#include "ranges.def"
    ,
    KEY_RANGES = 0
#define SPREAD(lowest, highest) +1
#define DRAWN(lowest, highest) +1
#include "ranges.def"
};

struct key_range {
    int64_t lowest, highest;
};

extern const struct key_range key_ranges[KEY_RANGES];

#endif
