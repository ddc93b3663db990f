/* voicing, by the oracle: every pool of at most two tones, the chords of every rooted set, ranges
   of unequal length, and drawn pools, of which there are as many as the command says. */
#include "draw.h"
#include "length.h"
#include "oracle_lines.h"
#include "refused_voicings.h"
#include "suite.h"
#include "voicings.h"

/* Of the chords of sets one in EVERY_LEAD is tried with every lead. */
enum { EVERY_LEAD = 431, LEADS = 256, LONGEST = 65552 };

static void small_pools(struct run *run)
{
    static const int64_t leads[] = {NO_LEAD, 0, 51, 60, 66, 79, 255};
    for (uint32_t number = 0; number < SMALL_POOLS; number++) {
        struct pool pool = small_pool(number);
        uint64_t state = draws_of(run->seed, number);
        for (unsigned at = 0; at < LENGTH(leads); at++) {
            struct chord chord = chord_of(7, NO_BASS, leads[at], &pool);
            expect_oracle_voicing(run, &chord, draw(&state));
        }
    }
}

/* A count, and that many bytes; what is left begins behind them. */
static struct range counted(struct range *left)
{
    size_t count = left->length == 0 ? 0 : left->bytes[0];
    if (left->length <= count)
        fail("the oracle's chord is cut");
    struct range bytes = {left->bytes + 1, count};
    *left = (struct range){bytes.bytes + count, left->length - 1 - count};
    return bytes;
}

/* The oracle says which tones the set's chord has. */
static void one_set(struct run *run, int64_t root, int64_t bass, int64_t lead, int64_t set,
                    uint64_t state)
{
    const char *answer = oracle_answer(run, REQUEST("set_voicing", NULL, root, bass, lead, set));
    if (answer == NULL)
        return;
    struct bytes line = bytes_in(answer);
    struct range left = {line.bytes, line.length};
    struct chord chord = chord_of(root, bass, lead, &(struct pool){.class_count = 0});
    chord.ranges[0] = counted(&left);
    chord.ranges[1] = counted(&left);
    expect_voicing(run, &chord, left, state);
}

static void set_over_bass(struct run *run, int64_t root, int64_t bass, uint32_t set)
{
    uint64_t number = (uint64_t)((root * SETS + set) * NO_LEAD + bass);
    uint64_t state = draws_of(run->seed, number);
    int64_t lead = drawn_lead(&state);
    one_set(run, root, bass, NO_LEAD, set, draw(&state));
    one_set(run, root, bass, lead, set, draw(&state));
    if (draw_below(&state, EVERY_LEAD) != 0)
        return;
    for (lead = 0; lead < LEADS; lead++)
        one_set(run, root, bass, lead, set, draw(&state));
}

/* As candidates have it, the bass is another class of the chord. */
static void chords_of_sets(struct run *run)
{
    for (uint32_t root = 0; root < CLASSES; root++)
        for (uint32_t set = 1; set < SETS; set += 2) {
            set_over_bass(run, root, NO_BASS, set);
            for (uint32_t above = 1; above < CLASSES; above++)
                if (set >> above & 1)
                    set_over_bass(run, root, (root + above) % CLASSES, set);
        }
}

static void unequal_ranges(struct run *run)
{
    for (size_t classes = 0; classes <= LONGEST_RANGE; classes++)
        for (size_t intervals = 0; intervals <= LONGEST_RANGE; intervals++) {
            uint64_t state = draws_of(run->seed, classes * (LONGEST_RANGE + 1) + intervals);
            struct pool pool = drawn_pool_of(&state, classes, intervals);
            struct chord chord = drawn_chord(&state, &pool);
            if (classes <= MOST_PAIRS || intervals <= MOST_PAIRS)
                expect_oracle_voicing(run, &chord, state);
        }
}

/* A length cut to one or two bytes would be short. */
static void long_ranges(struct run *run)
{
    static const size_t lengths[] = {255, 256, 257, 272, 65535, 65536, LONGEST};
    static const uint8_t bytes[LONGEST] = {4, 0, 7, 10, 2, 5};
    for (unsigned at = 0; at < LENGTH(lengths); at++) {
        uint64_t state = draws_of(run->seed, at);
        for (size_t used = 0; used <= MOST_PAIRS; used += 4) {
            struct pool pool = drawn_pool_of(&state, used, used);
            struct chord chord = drawn_chord(&state, &pool);
            chord.ranges[at % 2] = (struct range){bytes, lengths[at]};
            expect_oracle_voicing(run, &chord, state);
        }
    }
}

static void drawn_pools(struct run *run)
{
    for (uint64_t number = 0; number < run->count; number++) {
        uint64_t state = draws_of(run->seed, number);
        struct pool pool = drawn_pool(&state);
        struct chord chord = drawn_chord(&state, &pool);
        expect_oracle_voicing(run, &chord, state);
    }
}

static void every_chord(struct run *run)
{
    small_pools(run);
    chords_of_sets(run);
    unequal_ranges(run);
    long_ranges(run);
    drawn_pools(run);
}

static void stated_keys(struct run *run, int64_t bass, int64_t lead, struct pool pool,
                        struct range keys)
{
    struct chord chord = chord_of(0, bass, lead, &pool);
    expect_voicing_everywhere(run, &chord, keys);
}

/* Paper 01, "Engraver's proof sheet"; then refusals. */
static void stated_voicings(struct run *run)
{
    stated_keys(run, NO_BASS, NO_LEAD, (struct pool){{0, 4, 7, 11}, {0, 4, 8, 14}, 4, 4},
                KEYS(36, 52, 59, 79));
    stated_keys(run, NO_BASS, 72, (struct pool){{0, 3, 6}, {0, 3, 7}, 3, 3},
                KEYS(36, 51, 54, 66, 72));
    stated_keys(run, NO_BASS, 60, (struct pool){{0, 1}, {0, 16}, 2, 2}, KEYS(36, 0));
    stated_keys(run, 4, NO_LEAD, (struct pool){{0, 4, 7}, {0, 4, 8}, 3, 3},
                KEYS(40, 48, 52, 72, 79));
    refused_voicings(run, chord_of);
}

const struct suite voicing_suite = {"voicing", every_chord, stated_voicings};
