#include "bad_ranges.h"

#include "length.h"
#include "numbers_above.h"
#include "voicings.h"

enum { BEYOND = LAST_KEY + 4 };

static const struct pool none = {.class_count = 0};

/* A chord of no tones is its bass and a lead of 0, in every range that is one. */
static void either(struct run *run, struct key_range keys)
{
    static const uint8_t answer[] = {36, 0};
    const struct chord chord = chord_within(keys, 0, NO_BASS, NO_LEAD, &none);
    if (keys.lowest <= keys.highest && keys.highest <= LAST_KEY)
        expect_voicing_everywhere(run, &chord, (struct range){answer, sizeof answer});
    else
        expect_no_voicing(run, &chord, HEMOTUSAP_BAD_RANGE);
}

static void highest_above(struct run *run, int64_t highest)
{
    either(run, (struct key_range){0, highest});
    either(run, (struct key_range){highest, highest});
}

static void lowest_above(struct run *run, int64_t lowest)
{
    either(run, (struct key_range){lowest, LAST_KEY});
    either(run, (struct key_range){lowest, lowest - 1});
}

/* Before all that is said of the pairs and of the room, and behind a bad class. */
static void in_order(struct run *run, struct key_range keys)
{
    static const struct pool bad_class = {{0, 12}, {0, 4}, 2, 2};
    static const struct pool bad_interval = {{0, 4}, {0, 23}, 2, 2};
    static const struct pool many = {.class_count = 17, .interval_count = 17};
    static const struct pool *const pools[] = {&none, &bad_class, &bad_interval, &many};
    for (unsigned at = 0; at < LENGTH(pools); at++) {
        const struct chord good = chord_within(keys, 11, 11, 60, pools[at]);
        const struct chord bad_root = chord_within(keys, 12, NO_BASS, 60, pools[at]);
        const struct chord bad_bass = chord_within(keys, 0, 12, 60, pools[at]);
        expect_no_voicing(run, &good, HEMOTUSAP_BAD_RANGE);
        expect_no_voicing(run, &bad_root, HEMOTUSAP_BAD_CLASS);
        expect_no_voicing(run, &bad_bass, HEMOTUSAP_BAD_CLASS);
    }
}

void bad_ranges(struct run *run)
{
    for (int64_t lowest = 0; lowest <= BEYOND; lowest++)
        for (int64_t highest = 0; highest <= BEYOND; highest++)
            either(run, (struct key_range){lowest, highest});
    numbers_above(run, BEYOND, highest_above);
    numbers_above(run, BEYOND, lowest_above);
    in_order(run, (struct key_range){61, 60});
    in_order(run, (struct key_range){0, LAST_KEY + 1});
    in_order(run, (struct key_range){UINT32_MAX, UINT32_MAX});
}
