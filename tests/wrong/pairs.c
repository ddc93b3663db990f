/* Faults of both voicings: another bad pair told than the first, or that one told otherwise, good
   ones refused, and refusals out of their order. */
#include "pairs.h"

#include "answers.h"
#include "own_faults.h"

enum { LAST_CLASS = 11, LAST_INTERVAL = 22, SHORTEST = 2 };

/* How a call is refused for what stands at a place; 0: not for that. */
typedef int64_t refuser(const struct call *call, size_t place);

static bool is_above(struct range range, size_t place, uint8_t last)
{
    return place < range.length && range.bytes[place] > last;
}

static int64_t for_class(const struct call *call, size_t place)
{
    bool bad = is_above(call->inputs[CLASSES], place, LAST_CLASS);
    return bad ? placed_answer(HEMOTUSAP_BAD_PAIR_CLASS, place) : 0;
}

static int64_t for_interval(const struct call *call, size_t place)
{
    bool bad = is_above(call->inputs[INTERVALS], place, LAST_INTERVAL);
    return bad ? placed_answer(HEMOTUSAP_BAD_PAIR_INTERVAL, place) : 0;
}

static int64_t for_pair(const struct call *call, size_t place)
{
    int64_t refusal = for_class(call, place);
    return refusal != 0 ? refusal : for_interval(call, place);
}

/* Of the first of these places that is refused; 0: none is. */
static int64_t first(const struct call *call, refuser *refuse, size_t from, size_t to)
{
    int64_t refusal = 0;
    for (size_t place = from; refusal == 0 && place < to; place++)
        refusal = refuse(call, place);
    return refusal;
}

size_t used_pairs(const struct call *call)
{
    size_t classes = call->inputs[CLASSES].length, intervals = call->inputs[INTERVALS].length;
    return classes < intervals ? classes : intervals;
}

static int64_t last_bad_pair(const struct call *call, int64_t got)
{
    size_t place = used_pairs(call);
    while (place > 0 && for_pair(call, place - 1) == 0)
        place--;
    return place > 0 ? for_pair(call, place - 1) : got;
}

/* In one pair.. */
static int64_t interval_before_class(const struct call *call, int64_t got)
{
    int64_t refusal = for_interval(call, (size_t)(-got % 256));
    return refusal != 0 ? refusal : got;
}

/* ..and in all. */
static int64_t classes_before_intervals(const struct call *call, int64_t got)
{
    int64_t refusal = first(call, for_class, 0, used_pairs(call));
    return refusal != 0 ? refusal : got;
}

static bool is_of_interval(int64_t got)
{
    return got / -256 == HEMOTUSAP_BAD_PAIR_INTERVAL;
}

/* As if the two ranges were one, in which a class and its interval take turns. */
static int64_t place_of_a_byte(const struct call *call, int64_t got)
{
    (void)call;
    return got + got % 256 - is_of_interval(got);
}

static int64_t numbers_exchanged(const struct call *call, int64_t got)
{
    (void)call;
    return got + (is_of_interval(got) ? 256 : -256);
}

/* Which both parts had before they had one each. */
static int64_t the_old_number(const struct call *call, int64_t got)
{
    (void)call, (void)got;
    return -4;
}

static int64_t room_before_pairs(const struct call *call, int64_t got)
{
    return call->room < SHORTEST ? -HEMOTUSAP_NO_ROOM : got;
}

static int64_t pairs_before(int64_t refusal, const struct call *call, uint8_t *out)
{
    int64_t got = __real_call_library(call, out);
    int64_t of_pairs = got == -refusal ? first(call, for_pair, 0, used_pairs(call)) : 0;
    return of_pairs != 0 ? of_pairs : got;
}

static int64_t pairs_before_class(const struct call *call, uint8_t *out)
{
    return pairs_before(HEMOTUSAP_BAD_CLASS, call, out);
}

static int64_t pairs_before_count(const struct call *call, uint8_t *out)
{
    return pairs_before(HEMOTUSAP_TOO_MANY_PAIRS, call, out);
}

/* Refused though it is good, but for its room perhaps; nothing is written then. */
static int64_t refused_or_called(int64_t refusal, const struct call *call, uint8_t *out)
{
    struct call roomless = *call;
    roomless.room = 0;
    if (refusal != 0 && __real_call_library(&roomless, NULL) == -HEMOTUSAP_NO_ROOM)
        return refusal;
    return __real_call_library(call, out);
}

static int64_t unused_pairs_too(const struct call *call, uint8_t *out)
{
    size_t end = call->inputs[CLASSES].length + call->inputs[INTERVALS].length;
    return refused_or_called(first(call, for_pair, used_pairs(call), end), call, out);
}

static int64_t class_11_refused(const struct call *call, uint8_t *out)
{
    bool has = used_pairs(call) > 0 && call->inputs[CLASSES].bytes[0] == LAST_CLASS;
    return refused_or_called(has ? placed_answer(HEMOTUSAP_BAD_PAIR_CLASS, 0) : 0, call, out);
}

static int64_t interval_22_refused(const struct call *call, uint8_t *out)
{
    bool has = used_pairs(call) > 0 && call->inputs[INTERVALS].bytes[0] == LAST_INTERVAL;
    return refused_or_called(has ? placed_answer(HEMOTUSAP_BAD_PAIR_INTERVAL, 0) : 0, call, out);
}

const struct own_fault faults_of_voicing[] = {
    {"last_bad_pair", .is_seen = true, .retold = last_bad_pair},
    {"interval_before_class", .is_seen = true, .retold = interval_before_class},
    {"classes_before_intervals", .is_seen = true, .retold = classes_before_intervals},
    {"place_of_a_byte", .is_seen = true, .retold = place_of_a_byte},
    {"numbers_exchanged", .is_seen = true, .retold = numbers_exchanged},
    {"the_old_number", .is_seen = true, .retold = the_old_number},
    {"room_before_pairs", .is_seen = true, .retold = room_before_pairs},
    {"pairs_before_class", .call = pairs_before_class},
    {"pairs_before_count", .call = pairs_before_count},
    {"unused_pairs_too", .is_seen = true, .call = unused_pairs_too},
    {"class_11_refused", .is_seen = true, .call = class_11_refused},
    {"interval_22_refused", .is_seen = true, .call = interval_22_refused},
    {.name = NULL},
};
