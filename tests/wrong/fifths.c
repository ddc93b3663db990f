/* Faults of candidate_line: keys that call for another listing, and numbers taken for a key. */
#include "line_words.h"
#include "own_faults.h"

/* These fifths as if they were those. */
static int64_t fifths_as(int64_t these, int64_t those, const struct call *call, uint8_t *out)
{
    int64_t fifths = call->numbers[FIFTHS];
    return with_fifths(call, out, fifths == these ? those : fifths);
}

static int64_t sharp_at_0(const struct call *call, uint8_t *out)
{
    return fifths_as(0, 1, call, out);
}

static int64_t flat_at_1(const struct call *call, uint8_t *out)
{
    return fifths_as(1, 0, call, out);
}

static int64_t fifths_8_taken(const struct call *call, uint8_t *out)
{
    return fifths_as(MOST_FIFTHS + 1, MOST_FIFTHS, call, out);
}

static int64_t fifths_minus_8_taken(const struct call *call, uint8_t *out)
{
    return fifths_as(-MOST_FIFTHS - 1, -MOST_FIFTHS, call, out);
}

static int64_t fifths_7_not_taken(const struct call *call, uint8_t *out)
{
    return fifths_as(MOST_FIFTHS, MOST_FIFTHS + 1, call, out);
}

static int64_t fifths_minus_7_not_taken(const struct call *call, uint8_t *out)
{
    return fifths_as(-MOST_FIFTHS, -MOST_FIFTHS - 1, call, out);
}

static int64_t fifths_cut_to_a_byte(const struct call *call, uint8_t *out)
{
    return with_fifths(call, out, (int8_t)call->numbers[FIFTHS]);
}

static int64_t fifths_cut_to_two_bytes(const struct call *call, uint8_t *out)
{
    return with_fifths(call, out, (int16_t)call->numbers[FIFTHS]);
}

/* Its line, with the answer that tells the right one. */
static int64_t the_other_listing(const struct call *call, uint8_t *out)
{
    int64_t fifths = call->numbers[FIFTHS];
    int64_t got = __real_call_library(call, out);
    if (fifths >= -MOST_FIFTHS && fifths <= MOST_FIFTHS)
        with_fifths(call, out, fifths > 0 ? 0 : 1);
    return got;
}

const struct own_fault faults_of_fifths[] = {
    {"sharp_at_0", .is_seen = true, .call = sharp_at_0},
    {"flat_at_1", .is_seen = true, .call = flat_at_1},
    {"fifths_8_taken", .is_seen = true, .call = fifths_8_taken},
    {"fifths_minus_8_taken", .is_seen = true, .call = fifths_minus_8_taken},
    {"fifths_7_not_taken", .is_seen = true, .call = fifths_7_not_taken},
    {"fifths_minus_7_not_taken", .is_seen = true, .call = fifths_minus_7_not_taken},
    {"fifths_cut_to_a_byte", .is_seen = true, .call = fifths_cut_to_a_byte},
    {"fifths_cut_to_two_bytes", .call = fifths_cut_to_two_bytes},
    {"the_other_listing", .is_seen = true, .call = the_other_listing},
    {.name = NULL},
};
