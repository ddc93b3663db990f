/* Lists the wrong calls, a line each: the function, its fault, and who has to find it, which is the
   function's suite, the suite of a moved part, the fuzzer, the threads or, of harmony, the reader
   of MusicXML. */
#include "length.h"
#include "own_faults.h"

static const struct fault {
    const char *name;
    bool of_refusals; /* of functions that refuse, */
    bool of_places;   /* of those that tell a place */
    bool of_outputs;  /* of those that write, */
    bool of_rooms;    /* and of those whose room may be longer than what they write */
    bool is_seen;     /* by the fuzzer, which has no oracle */
    bool is_read;     /* by the reader, which sees the answer alone */
} faults[] = {
    {"one_more", .is_read = true},
    {"refuses_always", .is_read = true},
    {"now_and_then", .is_seen = true, .is_read = true},
    {"other_refusal", .of_refusals = true},
    {"places_from_1", .of_places = true, .is_seen = true},
    {"always_place_0", .of_places = true, .is_seen = true},
    {"no_place", .of_places = true, .is_seen = true},
    {"first_byte", .of_outputs = true, .is_read = true},
    {"last_byte", .of_outputs = true, .is_read = true},
    {"behind_the_answer", .of_rooms = true, .is_seen = true},
    {"behind_the_room", .of_outputs = true, .is_seen = true},
    {"before_the_room", .of_outputs = true, .is_seen = true},
    {"after_a_refusal", .of_refusals = true, .of_outputs = true, .is_seen = true},
};

static bool is_read(const struct function *function)
{
    return function == &functions[FUNCTION_harmony];
}

static bool has_output(const struct function *function)
{
    return function_writes(function) || function_word_bytes(function) > 0;
}

static bool tells_places(const struct function *function)
{
    for (const struct refusal *at = function->refusals; at->number != NO_REFUSAL; at++)
        if (at->input != NO_INPUT)
            return true;
    return false;
}

static void list(const struct function *function, const struct fault *fault)
{
    if (fault->of_refusals && function->refusals[0].number == NO_REFUSAL)
        return;
    if (fault->of_places && !tells_places(function))
        return;
    if (fault->of_outputs && !has_output(function))
        return;
    if (fault->of_rooms && !function_writes(function))
        return;
    printf("%s %s %s\n", function->name, fault->name, function->suite);
    if (fault->is_seen)
        printf("%s %s fuzzer\n", function->name, fault->name);
    if (fault->is_read && is_read(function))
        printf("%s %s musicxml\n", function->name, fault->name);
}

static void list_own(const struct function *function)
{
    const struct own_fault *own;
    for (unsigned at = 0; (own = own_fault(function, at)) != NULL; at++) {
        printf("%s %s %s\n", function->name, own->name, function->suite);
        if (own->is_seen)
            printf("%s %s fuzzer\n", function->name, own->name);
        if (own->is_read)
            printf("%s %s musicxml\n", function->name, own->name);
        if (own->is_moved)
            printf("%s %s moved_part\n", function->name, own->name);
    }
}

/* The note and `to` count alike in a transposition, note + to - from: no answer of the whole domain
   tells their letters apart, or their accidentals. */
static bool count_alike(const struct function *function, unsigned one)
{
    return function == &functions[FUNCTION_transpose] && one >= 2;
}

/* Each pair of one type, since a compiler takes them in either order. */
static void list_swapped(const struct function *function)
{
    const struct parameter *parameters = function->parameters;
    for (unsigned one = 0; parameters[one].kind != NO_PARAMETER; one++)
        for (unsigned other = one + 1; parameters[other].kind != NO_PARAMETER; other++)
            if (parameters[one].kind == parameters[other].kind && !count_alike(function, one))
                printf("%s swapped_parameters_%u_%u %s\n", function->name, one, other,
                       function->suite);
}

int main(void)
{
    for (unsigned function = 0; function < FUNCTIONS; function++) {
        for (unsigned fault = 0; fault < LENGTH(faults); fault++)
            list(&functions[function], &faults[fault]);
        list_own(&functions[function]);
        list_swapped(&functions[function]);
    }
    printf("%s by_a_shared_buffer threads\n", functions[FUNCTION_suffix].name);
    printf("%s places_from_1 threads\n", functions[FUNCTION_voicing].name);
    printf("%s the_lf_too threads\n", functions[FUNCTION_candidate_line].name);
    return 0;
}
