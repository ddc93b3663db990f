/* Faults of harmony: elements that are others, basses that are left out, and refusals out of their
   order. */
#include "elements.h"
#include "own_faults.h"

enum { ROOT, BASS, SET, SHORTEST = 74 };

static int64_t with_bass(const struct call *call, uint8_t *out, int64_t bass)
{
    const int64_t numbers[] = {call->numbers[ROOT], bass, call->numbers[SET]};
    struct call other = *call;
    other.numbers = numbers;
    return __real_call_library(&other, out);
}

static int64_t no_bass_on_the_root(const struct call *call, uint8_t *out)
{
    bool same = call->numbers[BASS] == call->numbers[ROOT];
    return with_bass(call, out, same ? HEMOTUSAP_NO_BASS : call->numbers[BASS]);
}

static int64_t no_bass_outside_the_set(const struct call *call, uint8_t *out)
{
    int64_t root = call->numbers[ROOT], bass = call->numbers[BASS];
    bool outside =
        root < 12 && bass < 12 && (call->numbers[SET] >> (bass + 12 - root) % 12 & 1) == 0;
    return with_bass(call, out, outside ? HEMOTUSAP_NO_BASS : bass);
}

/* So that 511 is none. */
static int64_t bass_cut_to_a_byte(const struct call *call, uint8_t *out)
{
    return with_bass(call, out, call->numbers[BASS] % 256);
}

static int64_t class_before_set(const struct call *call, uint8_t *out)
{
    int64_t root = call->numbers[ROOT], bass = call->numbers[BASS];
    if (root > 11 || (bass > 11 && bass != HEMOTUSAP_NO_BASS))
        return -HEMOTUSAP_BAD_CLASS;
    return __real_call_library(call, out);
}

static int64_t room_before(int64_t refusal, const struct call *call, uint8_t *out)
{
    int64_t got = __real_call_library(call, out);
    return got == -refusal && call->room < SHORTEST ? -HEMOTUSAP_NO_ROOM : got;
}

static int64_t room_before_set(const struct call *call, uint8_t *out)
{
    return room_before(HEMOTUSAP_NOT_A_SET, call, out);
}

static int64_t room_before_class(const struct call *call, uint8_t *out)
{
    return room_before(HEMOTUSAP_BAD_CLASS, call, out);
}

const struct own_fault faults_of_harmony[] = {
    {"types_exchanged", true, .edit = exchange_types},
    {"a_degree_lost", true, .edit = lose_the_last_degree},
    {"degrees_out_of_order", false, .edit = put_the_first_degree_last},
    {"from_a_major_chord", true, .edit = count_from_a_major_chord},
    {"b5_as_a_fourth", false, .edit = number_b5_as_a_fourth},
    {"an_altered_subtract", true, .edit = subtract_an_altered_tone},
    {"bass_before_kind", true, .edit = put_the_bass_before_the_kind},
    {"an_alter_of_0", false, .edit = write_an_alter_of_0},
    {"sharps", false, .edit = name_roots_by_sharps},
    {"another_kind", true, .edit = take_major_minor_for_minor},
    {"white_space", true, .edit = put_white_space},
    {"no_bass_on_the_root", true, .call = no_bass_on_the_root},
    {"no_bass_outside_the_set", true, .call = no_bass_outside_the_set},
    {"bass_cut_to_a_byte", false, .call = bass_cut_to_a_byte},
    {"class_before_set", false, .call = class_before_set},
    {"room_before_set", false, .call = room_before_set},
    {"room_before_class", false, .call = room_before_class},
    {.name = NULL},
};
