/* Faults of calls that take keys alone: another bad code told than the first, or that one told
   otherwise, bad codes taken or left out, a good one refused, and refusals out of their order. And
   one of those that refuse no code. */
#include "answers.h"
#include "lent_call.h"
#include "own_faults.h"

enum { LAST_KEY = 127, LAST_CODE = 255, FEW = 256 };

static struct range codes(const struct call *call)
{
    return call->inputs[0];
}

/* The length, where there is none. */
static size_t first_above(struct range list, uint8_t last)
{
    size_t place = 0;
    while (place < list.length && list.bytes[place] <= last)
        place++;
    return place;
}

static int64_t told(size_t place)
{
    return placed_answer(HEMOTUSAP_NOT_A_KEY, place);
}

/* What the call that takes any codes, and has the same names, answers of this list. */
static int64_t unchecked(const struct call *call, struct range list, uint8_t *out)
{
    const struct function *function = call->function;
    bool is_sharp = function == &functions[FUNCTION_candidates_sharp] ||
                    function == &functions[FUNCTION_candidates_strict_sharp];
    struct call other = *call;
    other.function = &functions[is_sharp ? FUNCTION_candidates_sharp : FUNCTION_candidates];
    other.inputs = &list;
    return __real_call_library(&other, out);
}

static int64_t taken_up_to(uint8_t last, const struct call *call, uint8_t *out)
{
    size_t place = first_above(codes(call), last);
    return place < codes(call).length ? told(place) : unchecked(call, codes(call), out);
}

static int64_t key_127_refused(const struct call *call, uint8_t *out)
{
    return taken_up_to(LAST_KEY - 1, call, out);
}

static int64_t strict_too(const struct call *call, uint8_t *out)
{
    return taken_up_to(LAST_KEY, call, out);
}

static int64_t code_128_taken(const struct call *call, uint8_t *out)
{
    return taken_up_to(LAST_KEY + 1, call, out);
}

static int64_t every_code_taken(const struct call *call, uint8_t *out)
{
    return taken_up_to(LAST_CODE, call, out);
}

static int64_t few_looked_at(const struct call *call, uint8_t *out)
{
    size_t place = first_above(codes(call), LAST_KEY);
    bool seen = place < codes(call).length && place < FEW;
    return seen ? told(place) : unchecked(call, codes(call), out);
}

static int64_t codes_before_the_bad(const struct call *call, uint8_t *out)
{
    struct range list = {codes(call).bytes, first_above(codes(call), LAST_KEY)};
    return unchecked(call, list, out);
}

static int64_t cut_to_7_bits(const struct call *call, uint8_t *out)
{
    static uint8_t cut[MOST_LENT];
    for (size_t at = 0; at < codes(call).length; at++)
        cut[at] = codes(call).bytes[at] % (LAST_KEY + 1);
    return unchecked(call, (struct range){cut, codes(call).length}, out);
}

static int64_t bad_codes_left_out(const struct call *call, uint8_t *out)
{
    static uint8_t keys[MOST_LENT];
    struct range list = {keys, 0};
    for (size_t at = 0; at < codes(call).length; at++)
        if (codes(call).bytes[at] <= LAST_KEY)
            keys[list.length++] = codes(call).bytes[at];
    return unchecked(call, list, out);
}

static int64_t written_before_refused(const struct call *call, uint8_t *out)
{
    int64_t got = unchecked(call, codes(call), out);
    size_t place = first_above(codes(call), LAST_KEY);
    return place < codes(call).length ? told(place) : got;
}

static int64_t room_before_keys(const struct call *call, int64_t got)
{
    uint8_t lines[HEMOTUSAP_CANDIDATES_ROOM];
    struct call roomy = *call;
    roomy.room = sizeof lines;
    return call->room < unchecked(&roomy, codes(call), lines) ? -HEMOTUSAP_NO_ROOM : got;
}

static int64_t last_bad_code(const struct call *call, int64_t got)
{
    (void)got;
    size_t place = codes(call).length - 1;
    while (codes(call).bytes[place] <= LAST_KEY)
        place--;
    return told(place);
}

static int64_t place_cut_to_a_byte(const struct call *call, int64_t got)
{
    (void)call;
    return told((size_t)(told(0) - got) % 256);
}

const struct own_fault faults_of_any_codes[] = {
    {"strict_too", .is_seen = true, .call = strict_too},
    {.name = NULL},
};

const struct own_fault faults_of_keys_alone[] = {
    {"key_127_refused", .is_seen = true, .call = key_127_refused},
    {"code_128_taken", .is_seen = true, .call = code_128_taken},
    {"every_code_taken", .is_seen = true, .call = every_code_taken},
    {"few_looked_at", .is_seen = true, .call = few_looked_at},
    {"codes_before_the_bad", .is_seen = true, .call = codes_before_the_bad},
    {"cut_to_7_bits", .is_seen = true, .call = cut_to_7_bits},
    {"bad_codes_left_out", .is_seen = true, .call = bad_codes_left_out},
    {"written_before_refused", .is_seen = true, .call = written_before_refused},
    {"room_before_keys", .is_seen = true, .retold = room_before_keys},
    {"last_bad_code", .is_seen = true, .retold = last_bad_code},
    {"place_cut_to_a_byte", .is_seen = true, .retold = place_cut_to_a_byte},
    {.name = NULL},
};
