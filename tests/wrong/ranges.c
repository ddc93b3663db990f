/* Faults of voicing_within: another range than the one asked for, another lead than none, tones
   that have no key forgotten, and a bad range refused otherwise or out of its order. */
#include "own_faults.h"
#include "pairs.h"

enum { ROOT, BASS, LOWEST, HIGHEST, LEAD, NUMBERS };
enum { MOST_PAIRS = 16, FIRST_KEY = 48, LAST_KEY = 127, LAST_LEAD = 255 };

static bool has_range(const struct call *call)
{
    return call->numbers[LOWEST] <= call->numbers[HIGHEST] && call->numbers[HIGHEST] <= LAST_KEY;
}

/* With another number at one place. */
static int64_t call_with_number(const struct call *call, uint8_t *out, int at, int64_t number)
{
    struct call other = *call;
    int64_t numbers[NUMBERS];
    for (int each = 0; each < NUMBERS; each++)
        numbers[each] = each == at ? number : call->numbers[each];
    other.numbers = numbers;
    return __real_call_library(&other, out);
}

static int64_t highest_left_out(const struct call *call, uint8_t *out)
{
    int64_t highest = has_range(call) ? LAST_KEY : call->numbers[HIGHEST];
    return call_with_number(call, out, HIGHEST, highest);
}

static int64_t lowest_left_out(const struct call *call, uint8_t *out)
{
    return call_with_number(call, out, LOWEST, has_range(call) ? 0 : call->numbers[LOWEST]);
}

static int64_t lowest_off_by_one(const struct call *call, uint8_t *out)
{
    int64_t lowest = call->numbers[LOWEST];
    bool narrower = has_range(call) && lowest < call->numbers[HIGHEST];
    return call_with_number(call, out, LOWEST, lowest + narrower);
}

static int64_t highest_off_by_one(const struct call *call, uint8_t *out)
{
    int64_t highest = call->numbers[HIGHEST];
    bool narrower = has_range(call) && call->numbers[LOWEST] < highest;
    return call_with_number(call, out, HIGHEST, highest - narrower);
}

static int64_t no_lead_is_79(const struct call *call, uint8_t *out)
{
    int64_t lead = call->numbers[LEAD];
    return call_with_number(call, out, LEAD, lead > LAST_LEAD ? 79 : lead);
}

/* As if the lead had to be one of the range's keys. */
static int64_t lead_brought_into_the_range(const struct call *call, uint8_t *out)
{
    int64_t lead = call->numbers[LEAD];
    if (has_range(call) && lead <= LAST_LEAD && lead > call->numbers[HIGHEST])
        lead = call->numbers[LOWEST];
    return call_with_number(call, out, LEAD, lead);
}

static bool has_key(const struct call *call, uint8_t class)
{
    int64_t key = FIRST_KEY + class;
    while (key < call->numbers[LOWEST])
        key += 12;
    return key <= call->numbers[HIGHEST];
}

/* Tones without a key are not put into the pool. */
static int64_t keyless_not_counted(const struct call *call, uint8_t *out)
{
    uint8_t classes[MOST_PAIRS], intervals[MOST_PAIRS];
    size_t kept = 0;
    if (!has_range(call) || used_pairs(call) > MOST_PAIRS)
        return __real_call_library(call, out);
    for (size_t at = 0; at < used_pairs(call); at++)
        if (has_key(call, call->inputs[CLASSES].bytes[at])) {
            classes[kept] = call->inputs[CLASSES].bytes[at];
            intervals[kept++] = call->inputs[INTERVALS].bytes[at];
        }
    struct call fewer = *call;
    fewer.inputs = (const struct range[PAIR_RANGES]){{classes, kept}, {intervals, kept}};
    return __real_call_library(&fewer, out);
}

static int64_t range_before_class(const struct call *call, uint8_t *out)
{
    int64_t got = __real_call_library(call, out);
    return got == -HEMOTUSAP_BAD_CLASS && !has_range(call) ? -HEMOTUSAP_BAD_RANGE : got;
}

/* A bad range is looked at once the pairs are good: what is told of them in a good one. */
static int64_t range_after_pairs(const struct call *call, uint8_t *out)
{
    int64_t got = __real_call_library(call, out);
    if (got != -HEMOTUSAP_BAD_RANGE)
        return got;
    struct call roomless = *call;
    roomless.room = 0;
    roomless.numbers = (const int64_t[]){call->numbers[ROOT], call->numbers[BASS], 0, LAST_KEY, 0};
    int64_t of_pairs = __real_call_library(&roomless, NULL);
    return of_pairs == -HEMOTUSAP_NO_ROOM ? got : of_pairs;
}

static int64_t key_128_taken(const struct call *call, uint8_t *out)
{
    int64_t highest = call->numbers[HIGHEST];
    return call_with_number(call, out, HIGHEST, highest == LAST_KEY + 1 ? LAST_KEY : highest);
}

static int64_t one_key_refused(const struct call *call, uint8_t *out)
{
    bool one = call->numbers[LOWEST] == call->numbers[HIGHEST];
    return call_with_number(call, out, HIGHEST, one ? LAST_KEY + 1 : call->numbers[HIGHEST]);
}

/* A number cut to a byte. */
static int64_t low_byte_of_highest(const struct call *call, uint8_t *out)
{
    return call_with_number(call, out, HIGHEST, call->numbers[HIGHEST] % 256);
}

static int64_t low_byte_of_lowest(const struct call *call, uint8_t *out)
{
    return call_with_number(call, out, LOWEST, call->numbers[LOWEST] % 256);
}

const struct own_fault faults_of_ranges[] = {
    {"highest_left_out", .call = highest_left_out},
    {"lowest_left_out", .call = lowest_left_out},
    {"lowest_off_by_one", .call = lowest_off_by_one},
    {"highest_off_by_one", .call = highest_off_by_one},
    {"no_lead_is_79", .call = no_lead_is_79},
    {"lead_brought_into_the_range", .call = lead_brought_into_the_range},
    {"keyless_not_counted", .call = keyless_not_counted},
    {"range_before_class", .call = range_before_class},
    {"range_after_pairs", .call = range_after_pairs},
    {"key_128_taken", .call = key_128_taken},
    {"one_key_refused", .call = one_key_refused},
    {"low_byte_of_highest", .call = low_byte_of_highest},
    {"low_byte_of_lowest", .call = low_byte_of_lowest},
    {.name = NULL},
};
