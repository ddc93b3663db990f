#include "voicings.h"

#include <string.h>

#include "draw.h"
#include "length.h"
#include "lent_call.h"
#include "oracle_lines.h"
#include "written.h"

/* Of the chords one in EVERY_ROOM is tried in every room. */
enum { EVERY_ROOM = 100, LEADS = 256 };

#define RANGES(pool)                                                                         \
    {                                                                                        \
        {(pool)->classes, (pool)->class_count}, {(pool)->intervals, (pool)->interval_count}  \
    }

struct chord chord_of(int64_t root, int64_t bass, int64_t lead, const struct pool *pool)
{
    return (struct chord){&functions[FUNCTION_voicing], {root, bass, lead}, 3, RANGES(pool)};
}

struct chord chord_within(struct key_range keys, int64_t root, int64_t bass, int64_t lead,
                          const struct pool *pool)
{
    return (struct chord){&functions[FUNCTION_voicing_within],
                          {root, bass, keys.lowest, keys.highest, lead},
                          5,
                          RANGES(pool)};
}

struct chord chord_of_all_keys(int64_t root, int64_t bass, int64_t lead, const struct pool *pool)
{
    return chord_within((struct key_range){0, LAST_KEY}, root, bass, lead, pool);
}

int64_t drawn_lead(uint64_t *state)
{
    static const int64_t none[] = {NO_LEAD,    NO_LEAD + 1, NO_LEAD + 60,
                                   65536 + 60, INT32_MAX,   INT64_C(1) << 31, UINT32_MAX};
    switch (draw_below(state, 4)) {
    case 0:
        return none[draw_below(state, LENGTH(none))];
    case 1:
        return draw_below(state, LEADS);
    default: /* a key of the usual range, or just outside */
        return 48 + draw_below(state, 35);
    }
}

struct chord drawn_chord(uint64_t *state, const struct pool *pool)
{
    int64_t root = draw_below(state, CLASSES);
    int64_t bass = draw_below(state, 2) == 0 ? NO_BASS : draw_below(state, CLASSES);
    return chord_of(root, bass, drawn_lead(state), pool);
}

/* The call, which the oracle takes too; it points into the chord. */
static struct call voicing_of(const struct chord *chord)
{
    return (struct call){.name = chord->function->name,
                         .function = chord->function,
                         .numbers = chord->numbers,
                         .count = chord->count,
                         .inputs = chord->ranges,
                         .input_count = LENGTH(chord->ranges),
                         .room = NO_OUTPUT};
}

static void in_room(struct run *run, const struct chord *chord, struct range keys, size_t room)
{
    const struct call call = voicing_of(chord);
    expect_written_in(run, &call, keys.bytes, keys.length, room);
}

void expect_voicing_everywhere(struct run *run, const struct chord *chord, struct range keys)
{
    const struct call call = voicing_of(chord);
    expect_written(run, &call, keys.bytes, keys.length);
}

/* One less, one more, any that is too small, or any. */
static size_t drawn_room(size_t length, uint64_t *state)
{
    switch (draw_below(state, 4)) {
    case 0:
        return length - 1;
    case 1:
        return length + 1;
    case 2:
        return draw_below(state, (uint32_t)length);
    default:
        return draw_below(state, MOST_KEYS);
    }
}

/* What stands behind the used pairs is not looked at, so bad bytes there change nothing. */
static void with_bad_surplus(struct run *run, const struct chord *chord, struct range keys,
                             uint64_t *state)
{
    static uint8_t bytes[LENGTH(chord->ranges)][MOST_LENT];
    struct range classes = chord->ranges[0], intervals = chord->ranges[1];
    size_t used = classes.length < intervals.length ? classes.length : intervals.length;
    struct chord bad = *chord;
    for (unsigned at = 0; at < LENGTH(bad.ranges); at++) {
        struct range *range = &bad.ranges[at];
        memset(bytes[at], (int)(INTERVALS + draw_below(state, 256 - INTERVALS)), range->length);
        if (used > 0)
            memcpy(bytes[at], range->bytes, used);
        range->bytes = bytes[at];
    }
    in_room(run, &bad, keys, keys.length);
}

void expect_voicing(struct run *run, const struct chord *chord, struct range keys, uint64_t state)
{
    if (keys.length == 0 || keys.length > MOST_KEYS)
        fail("a voicing of the oracle has %zu keys", keys.length);
    in_room(run, chord, keys, keys.length);
    in_room(run, chord, keys, drawn_room(keys.length, &state));
    if (draw_below(&state, EVERY_ROOM) == 0)
        expect_voicing_everywhere(run, chord, keys);
    if (chord->ranges[0].length != chord->ranges[1].length)
        with_bad_surplus(run, chord, keys, &state);
}

void expect_oracle_voicing(struct run *run, const struct chord *chord, uint64_t state)
{
    const struct call call = voicing_of(chord);
    const char *answer = oracle_answer(run, &call);
    if (answer == NULL)
        return;
    struct bytes keys = bytes_in(answer);
    expect_voicing(run, chord, (struct range){keys.bytes, keys.length}, state);
}

void expect_no_voicing_in(struct run *run, const struct chord *chord, int64_t refusal, size_t room)
{
    const struct call call = voicing_of(chord);
    expect_unwritten_in(run, &call, refusal, room);
}

void expect_no_voicing(struct run *run, const struct chord *chord, int64_t refusal)
{
    static const size_t rooms[] = {0, 1, MOST_KEYS};
    for (unsigned at = 0; at < LENGTH(rooms); at++)
        expect_no_voicing_in(run, chord, refusal, rooms[at]);
}
