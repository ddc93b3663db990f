#include "bad_pairs.h"

#include <string.h>

#include "answers.h"
#include "draw.h"
#include "length.h"

enum { BYTES = 256, HIGHEST = BYTES - 1 };

/* What of a pair is bad. */
enum part { CLASS, INTERVAL, BOTH, PARTS };

/* As a host gets it, but for the sign. A pair's class is looked at first. */
static int64_t told(enum part part, size_t place)
{
    int64_t number = part == INTERVAL ? HEMOTUSAP_BAD_PAIR_INTERVAL : HEMOTUSAP_BAD_PAIR_CLASS;
    return -placed_answer(number, place);
}

/* Every byte that is bad there, in a pool that is good but for it; by turns in no room, in too
   little and in enough. */
static void bad_bytes(struct run *run, chord_maker *make, struct pool pool, enum part part,
                      size_t place)
{
    static const size_t rooms[] = {0, 1, MOST_KEYS};
    uint8_t *byte = part == CLASS ? &pool.classes[place] : &pool.intervals[place];
    const struct chord chord = make(0, NO_BASS, NO_LEAD, &pool);
    for (unsigned bad = part == CLASS ? CLASSES : INTERVALS; bad < BYTES; bad++) {
        *byte = (uint8_t)bad;
        expect_no_voicing_in(run, &chord, told(part, place), rooms[bad % LENGTH(rooms)]);
    }
}

/* By the lowest byte that is bad, or, of both parts, by the highest. */
static void spoil(struct pool *pool, enum part part, size_t place)
{
    if (part != INTERVAL)
        pool->classes[place] = part == BOTH ? HIGHEST : CLASSES;
    if (part != CLASS)
        pool->intervals[place] = part == BOTH ? HIGHEST : INTERVALS;
}

static void expect_told(struct run *run, chord_maker *make, const struct pool *pool, enum part part,
                        size_t place)
{
    const struct chord chord = make(0, NO_BASS, NO_LEAD, pool);
    expect_no_voicing(run, &chord, told(part, place));
}

/* The pair at this place, bad in each way, alone and before another that is bad in each way. */
static void first_of_two(struct run *run, chord_maker *make, const struct pool *good, size_t used,
                         size_t place)
{
    for (enum part part = 0; part < PARTS; part++) {
        struct pool one = *good;
        spoil(&one, part, place);
        expect_told(run, make, &one, part, place);
        for (size_t behind = place + 1; behind < used; behind++)
            for (enum part other = 0; other < PARTS; other++) {
                struct pool two = one;
                spoil(&two, other, behind);
                expect_told(run, make, &two, part, place);
            }
    }
}

/* With one range longer than the other and bad in all that is not used. */
static struct pool lengthened(struct pool pool, enum part longer)
{
    uint8_t *bytes = longer == CLASS ? pool.classes : pool.intervals;
    size_t *count = longer == CLASS ? &pool.class_count : &pool.interval_count;
    memset(bytes + *count, HIGHEST, LONGEST_RANGE - *count);
    *count = LONGEST_RANGE;
    return pool;
}

void bad_pairs(struct run *run, chord_maker *make)
{
    for (size_t used = 1; used <= MOST_PAIRS; used++) {
        uint64_t state = draws_of(run->seed, used);
        const struct pool pool = drawn_pool_of(&state, used, used);
        const struct pool more_classes = lengthened(pool, CLASS);
        const struct pool more_intervals = lengthened(pool, INTERVAL);
        for (size_t place = 0; place < used; place++) {
            bad_bytes(run, make, pool, CLASS, place);
            bad_bytes(run, make, pool, INTERVAL, place);
            first_of_two(run, make, &pool, used, place);
            first_of_two(run, make, &more_classes, used, place);
            first_of_two(run, make, &more_intervals, used, place);
        }
    }
}
