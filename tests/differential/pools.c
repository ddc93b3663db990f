#include "pools.h"

#include "draw.h"

/* The tones are the number's digits, which go from 1 to PAIRS: so each pool has one number. */
struct pool small_pool(uint32_t number)
{
    struct pool pool = {.class_count = 0};
    for (; number > 0; number = (number - 1) / PAIRS) {
        uint32_t pair = (number - 1) % PAIRS;
        pool.classes[pool.class_count++] = (uint8_t)(pair / INTERVALS);
        pool.intervals[pool.interval_count++] = (uint8_t)(pair % INTERVALS);
    }
    return pool;
}

static uint8_t drawn_member(uint64_t *state, uint32_t set, unsigned limit)
{
    uint32_t member;
    do
        member = draw_below(state, limit);
    while ((set >> member & 1) == 0);
    return (uint8_t)member;
}

/* From sets, so that equal keys and equal intervals come often. */
struct pool drawn_pool_of(uint64_t *state, size_t class_count, size_t interval_count)
{
    struct pool pool = {.class_count = class_count, .interval_count = interval_count};
    uint32_t classes = draw_set(state, CLASSES);
    uint32_t intervals = draw_set(state, INTERVALS);
    for (size_t at = 0; at < class_count; at++)
        pool.classes[at] = drawn_member(state, classes, CLASSES);
    for (size_t at = 0; at < interval_count; at++)
        pool.intervals[at] = drawn_member(state, intervals, INTERVALS);
    return pool;
}

struct pool drawn_pool(uint64_t *state)
{
    uint32_t count = draw_below(state, MOST_PAIRS + 1);
    uint32_t longer = count + 1 + draw_below(state, LONGEST_RANGE - MOST_PAIRS);
    switch (draw_below(state, 4)) {
    case 0:
        return drawn_pool_of(state, longer, count);
    case 1:
        return drawn_pool_of(state, count, longer);
    default:
        return drawn_pool_of(state, count, count);
    }
}
