#include "refused_voicings.h"

#include <string.h>

#include "bad_pairs.h"
#include "length.h"
#include "numbers_above.h"

enum { LONGEST = 65552 };

static const struct pool good = {{0, 4, 7}, {0, 4, 8}, 3, 3};

static chord_maker *make; /* for the function whose refusals are tried */

/* Too many pairs, bad ones, and no room: a bad class comes before all of these. */
static void refuse_classes(struct run *run, int64_t root, int64_t bass)
{
    static const struct pool bad_class = {{0, 12}, {0, 4}, 2, 2};
    static const struct pool bad_interval = {{0, 4}, {0, 23}, 2, 2};
    static const struct pool long_good = {.class_count = 17, .interval_count = 17};
    static const struct pool none = {.class_count = 0};
    static const struct pool *const pools[] = {&good, &bad_class, &bad_interval, &long_good, &none};
    for (unsigned at = 0; at < LENGTH(pools); at++) {
        struct chord chord = make(root, bass, NO_LEAD, pools[at]);
        expect_no_voicing(run, &chord, HEMOTUSAP_BAD_CLASS);
    }
}

static void refuse_root(struct run *run, int64_t root)
{
    refuse_classes(run, root, NO_BASS);
    refuse_classes(run, root, 11);
    refuse_classes(run, root, 12);
}

static void refuse_bass(struct run *run, int64_t bass)
{
    refuse_classes(run, 0, bass);
    refuse_classes(run, 11, bass);
}

/* Bytes that are all good, and bad in the one range, in the other or in both: none is looked at. */
static void many_pairs(struct run *run, size_t classes, size_t intervals)
{
    static uint8_t bytes[2][LONGEST];
    static const int fills[][2] = {{0, 0}, {11, 22}, {12, 0}, {0, 23}, {255, 255}};
    for (unsigned at = 0; at < LENGTH(fills); at++) {
        memset(bytes[0], fills[at][0], classes);
        memset(bytes[1], fills[at][1], intervals);
        struct chord chord = make(0, NO_BASS, NO_LEAD, &good);
        chord.ranges[0] = (struct range){bytes[0], classes};
        chord.ranges[1] = (struct range){bytes[1], intervals};
        expect_no_voicing(run, &chord, HEMOTUSAP_TOO_MANY_PAIRS);
    }
}

/* A length cut to one or two bytes would pass. */
static void too_many_pairs(struct run *run)
{
    static const size_t lengths[] = {17, 18, 31, 32, 33, 255, 256, 257, 272, 65535, 65536, LONGEST};
    for (unsigned a = 0; a < LENGTH(lengths); a++)
        for (unsigned b = 0; b < LENGTH(lengths); b++)
            many_pairs(run, lengths[a], lengths[b]);
}

void refused_voicings(struct run *run, chord_maker *maker)
{
    make = maker;
    classes_above(run, refuse_root, refuse_bass);
    too_many_pairs(run);
    bad_pairs(run, make);
}
