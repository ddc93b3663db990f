/* Faults of candidate_line: another number, other ends of the line, another empty part. */
#include "line_words.h"
#include "own_faults.h"

static int64_t number_one_more(const struct call *call, uint8_t *out)
{
    return with_number(call, out, call->numbers[NUMBER] + 1);
}

static int64_t number_from_1(const struct call *call, uint8_t *out)
{
    return with_number(call, out, call->numbers[NUMBER] - 1);
}

static int64_t number_cut_to_a_byte(const struct call *call, uint8_t *out)
{
    return with_number(call, out, (uint8_t)call->numbers[NUMBER]);
}

static int64_t number_cut_to_two_bytes(const struct call *call, uint8_t *out)
{
    return with_number(call, out, (uint16_t)call->numbers[NUMBER]);
}

static int64_t the_first_beyond(const struct call *call, uint8_t *out)
{
    int64_t got = __real_call_library(call, out);
    return is_empty_part(call, got, out) ? with_number(call, out, 0) : got;
}

static int64_t the_lf_too(const struct call *call, uint8_t *out)
{
    int64_t got = __real_call_library(call, out);
    words(out)[LINE_LENGTH] += !is_empty_part(call, got, out);
    return got;
}

static int64_t cut_to(uint64_t most, unsigned word, const struct call *call, uint8_t *out)
{
    int64_t got = __real_call_library(call, out);
    words(out)[word] &= most;
    return got;
}

static int64_t start_cut_to_a_byte(const struct call *call, uint8_t *out)
{
    return cut_to(UINT8_MAX, LINE_START, call, out);
}

static int64_t start_cut_to_two_bytes(const struct call *call, uint8_t *out)
{
    return cut_to(UINT16_MAX, LINE_START, call, out);
}

static int64_t length_cut_to_a_byte(const struct call *call, uint8_t *out)
{
    return cut_to(UINT8_MAX, LINE_LENGTH, call, out);
}

static int64_t length_cut_to_two_bytes(const struct call *call, uint8_t *out)
{
    return cut_to(UINT16_MAX, LINE_LENGTH, call, out);
}

static int64_t not_written(unsigned word, const struct call *call, uint8_t *out)
{
    uint64_t old = words(out)[word];
    int64_t got = __real_call_library(call, out);
    words(out)[word] = old;
    return got;
}

static int64_t start_not_written(const struct call *call, uint8_t *out)
{
    return not_written(LINE_START, call, out);
}

static int64_t length_not_written(const struct call *call, uint8_t *out)
{
    return not_written(LINE_LENGTH, call, out);
}

static int64_t empty_at(uint64_t start, const struct call *call, uint8_t *out)
{
    int64_t got = __real_call_library(call, out);
    if (is_empty_part(call, got, out))
        words(out)[LINE_START] = start;
    return got;
}

static int64_t empty_at_the_start(const struct call *call, uint8_t *out)
{
    return empty_at(0, call, out);
}

static int64_t empty_at_the_sharp_end(const struct call *call, uint8_t *out)
{
    return empty_at(call->inputs[SHARP].length, call, out);
}

/* In a sharp key, told as such. */
static int64_t empty_in_the_sharp_one(const struct call *call, uint8_t *out)
{
    int64_t fifths = call->numbers[FIFTHS], got = __real_call_library(call, out);
    if (!is_empty_part(call, got, out) || fifths < 1 || fifths > MOST_FIFTHS)
        return got;
    words(out)[LINE_START] = call->inputs[SHARP].length;
    return SHARP;
}

const struct own_fault faults_of_lines[] = {
    {"number_one_more", .is_seen = true, .call = number_one_more},
    {"number_from_1", .is_seen = true, .call = number_from_1},
    {"number_cut_to_a_byte", .is_seen = true, .call = number_cut_to_a_byte},
    {"number_cut_to_two_bytes", .call = number_cut_to_two_bytes},
    {"the_first_beyond", .is_seen = true, .call = the_first_beyond},
    {"the_lf_too", .is_seen = true, .call = the_lf_too},
    {"start_cut_to_a_byte", .is_seen = true, .call = start_cut_to_a_byte},
    {"start_cut_to_two_bytes", .call = start_cut_to_two_bytes},
    {"length_cut_to_a_byte", .call = length_cut_to_a_byte},
    {"length_cut_to_two_bytes", .call = length_cut_to_two_bytes},
    {"start_not_written", .is_seen = true, .call = start_not_written},
    {"length_not_written", .is_seen = true, .call = length_not_written},
    {"empty_at_the_start", .is_seen = true, .call = empty_at_the_start},
    {"empty_at_the_sharp_end", .is_seen = true, .call = empty_at_the_sharp_end},
    {"empty_in_the_sharp_one", .is_seen = true, .call = empty_in_the_sharp_one},
    {.name = NULL},
};
