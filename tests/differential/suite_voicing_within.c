/* voicing_within, by the Rust with other bounds: every pool of at most two tones in each range of
   the spread, and drawn pools, as many as the command says, in drawn ranges. */
#include "bad_ranges.h"
#include "draw.h"
#include "refused_voicings.h"
#include "suite.h"

/* With no lead, which is the highest key, and with any. */
static void small_pool_in(struct run *run, struct key_range keys, uint32_t number, uint64_t state)
{
    struct pool pool = small_pool(number);
    const struct chord highest = chord_within(keys, 7, NO_BASS, NO_LEAD, &pool);
    const struct chord drawn = chord_within(keys, 7, NO_BASS, drawn_lead(&state), &pool);
    expect_oracle_voicing(run, &highest, draw(&state));
    expect_oracle_voicing(run, &drawn, draw(&state));
}

static void small_pools(struct run *run)
{
    for (unsigned at = 0; at < SPREAD_RANGES; at++)
        for (uint32_t number = 0; number < SMALL_POOLS; number++)
            small_pool_in(run, key_ranges[at], number,
                          draws_of(run->seed, (uint64_t)at * SMALL_POOLS + number));
}

static void drawn_pools(struct run *run)
{
    for (uint64_t number = 0; number < run->count; number++) {
        uint64_t state = draws_of(run->seed, number);
        struct pool pool = drawn_pool(&state);
        struct key_range keys = key_ranges[draw_below(&state, KEY_RANGES)];
        struct chord drawn = drawn_chord(&state, &pool);
        struct chord chord =
            chord_within(keys, drawn.numbers[0], drawn.numbers[1], drawn.numbers[2], &pool);
        expect_oracle_voicing(run, &chord, state);
    }
}

static void every_chord(struct run *run)
{
    small_pools(run);
    drawn_pools(run);
}

static void stated_keys(struct run *run, struct key_range within, int64_t lead, struct pool pool,
                        struct range keys)
{
    struct chord chord = chord_within(within, 0, NO_BASS, lead, &pool);
    expect_voicing_everywhere(run, &chord, keys);
}

/* C major seventh on the proof sheet's keys, on a vibraphone's and on a left hand's. On middle C
   alone it has no lead, since B bars C, and a triad has; below 48 neither has a key. */
static void stated_voicings(struct run *run)
{
    const struct pool seventh = {{0, 4, 7, 11}, {0, 4, 8, 14}, 4, 4};
    const struct pool triad = {{0, 4, 7}, {0, 4, 8}, 3, 3};
    stated_keys(run, (struct key_range){51, 79}, NO_LEAD, seventh, KEYS(36, 52, 59, 79));
    stated_keys(run, (struct key_range){51, 89}, NO_LEAD, seventh, KEYS(36, 59, 79, 88));
    stated_keys(run, (struct key_range){51, 67}, NO_LEAD, seventh, KEYS(36, 52, 59, 67));
    stated_keys(run, (struct key_range){60, 60}, NO_LEAD, seventh, KEYS(36, 0));
    stated_keys(run, (struct key_range){60, 60}, NO_LEAD, triad, KEYS(36, 60));
    stated_keys(run, (struct key_range){0, 47}, 60, seventh, KEYS(36, 0));
    bad_ranges(run);
    refused_voicings(run, chord_of_all_keys);
}

const struct suite voicing_within_suite = {"voicing_within", every_chord, stated_voicings};
