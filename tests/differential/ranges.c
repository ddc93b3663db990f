#include "ranges.h"

const struct key_range key_ranges[KEY_RANGES] = {
#define SPREAD(lowest, highest) {lowest, highest},
#define DRAWN(lowest, highest) {lowest, highest},
#include "ranges.def"
};
