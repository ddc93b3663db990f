/* Faults of candidate: a part that is another, and another number. */
#include "own_faults.h"

/* What a candidate is made of; of none the set is 0. */
struct parts {
    int64_t bass, root, set;
};

enum { NO_BASS = 15 };

static int64_t packed(struct parts parts)
{
    return parts.set == 0 ? 0 : 65536 * parts.bass + 4096 * parts.root + parts.set;
}

static struct parts numbered(const struct call *call, int64_t number)
{
    struct call other = *call;
    other.numbers = &number;
    int64_t got = __real_call_library(&other, NULL);
    return (struct parts){got / 65536, got / 4096 % 16, got % 4096};
}

static struct parts right(const struct call *call)
{
    return numbered(call, call->numbers[0]);
}

static int64_t no_bass(const struct call *call)
{
    struct parts parts = right(call);
    parts.bass = NO_BASS;
    return packed(parts);
}

/* The first has one too. */
static int64_t bass_of_all(const struct call *call)
{
    struct parts parts = right(call);
    parts.bass = numbered(call, 0).root;
    return packed(parts);
}

static int64_t root_of_the_first(const struct call *call)
{
    struct parts parts = right(call);
    parts.root = numbered(call, 0).root;
    return packed(parts);
}

/* Not turned to the candidate's root. */
static int64_t set_of_the_first(const struct call *call)
{
    struct parts parts = right(call);
    if (parts.set != 0)
        parts.set = numbered(call, 0).set;
    return packed(parts);
}

static int64_t number_one_more(const struct call *call)
{
    return packed(numbered(call, call->numbers[0] + 1));
}

static int64_t number_cut_to_a_byte(const struct call *call)
{
    return packed(numbered(call, call->numbers[0] % 256));
}

/* A class that has occurred counts again. */
static int64_t number_of_a_code(const struct call *call)
{
    struct range list = call->inputs[0];
    uint64_t at = (uint64_t)call->numbers[0];
    for (int64_t number = 0; at < list.length && number < 12; number++)
        if (numbered(call, number).root == list.bytes[at] % 12)
            return packed(numbered(call, number));
    return 0;
}

/* Where there is none, the last that there is. */
static int64_t the_last_beyond(const struct call *call)
{
    int64_t number = call->numbers[0] < 12 ? call->numbers[0] : 12;
    while (number > 0 && numbered(call, number).set == 0)
        number--;
    return packed(numbered(call, number));
}

/* It is C's, wherever the list is. */
static int64_t bass_not_raised(const struct call *call)
{
    struct parts parts = right(call);
    if (parts.bass != NO_BASS)
        parts.bass = 0;
    return packed(parts);
}

/* As far below C as it is above, so that what is raised falls. */
static int64_t root_the_wrong_way(const struct call *call)
{
    struct parts parts = right(call);
    parts.root = (12 - parts.root) % 12;
    return packed(parts);
}

/* On E it has another. */
static int64_t a_set_by_its_root(const struct call *call)
{
    struct parts parts = right(call);
    if (parts.root == 4)
        parts.set ^= 2;
    return packed(parts);
}

const struct own_fault faults_of_candidate[] = {
    {"no_bass", false, .answer = no_bass},
    {"bass_of_all", false, .answer = bass_of_all},
    {"root_of_the_first", false, .answer = root_of_the_first},
    {"set_of_the_first", false, .answer = set_of_the_first},
    {"number_one_more", false, .answer = number_one_more},
    {"number_cut_to_a_byte", false, .answer = number_cut_to_a_byte},
    {"number_of_a_code", false, .answer = number_of_a_code},
    {"the_last_beyond", false, .answer = the_last_beyond},
    {"bass_not_raised", .is_moved = true, .answer = bass_not_raised},
    {"root_the_wrong_way", .is_moved = true, .answer = root_the_wrong_way},
    {"a_set_by_its_root", .is_moved = true, .answer = a_set_by_its_root},
    {.name = NULL},
};
