/* Faults of the four calls that write candidates: names that are others. */
#include <string.h>

#include "own_faults.h"

/* The function that has the other names, and differs in no more. */
static const struct function *other_of(const struct function *function)
{
    static const unsigned others[FUNCTIONS] = {
        [FUNCTION_candidates] = FUNCTION_candidates_sharp,
        [FUNCTION_candidates_sharp] = FUNCTION_candidates,
        [FUNCTION_candidates_strict] = FUNCTION_candidates_strict_sharp,
        [FUNCTION_candidates_strict_sharp] = FUNCTION_candidates_strict,
    };
    return &functions[others[function - functions]];
}

static int64_t other_names(const struct call *call, uint8_t *out)
{
    struct call other = *call;
    other.function = other_of(call->function);
    return __real_call_library(&other, out);
}

/* Of the basses alone, or of the roots: both texts are of one length. */
static int64_t other_names_of(bool basses, const struct call *call, uint8_t *out)
{
    uint8_t others[HEMOTUSAP_CANDIDATES_ROOM];
    struct call roomy = *call;
    roomy.room = sizeof others;
    other_names(&roomy, others);
    int64_t got = __real_call_library(call, out);
    bool is_bass = false;
    for (int64_t at = 0; at < got; at++) {
        if (is_bass == basses)
            out[at] = others[at];
        is_bass = out[at] == '/' || (is_bass && out[at] != '\n');
    }
    return got;
}

static int64_t other_names_of_roots(const struct call *call, uint8_t *out)
{
    return other_names_of(false, call, out);
}

static int64_t other_names_of_basses(const struct call *call, uint8_t *out)
{
    return other_names_of(true, call, out);
}

/* Of class 6, so that it is E# or Fb. */
static void put_a_lower_letter(char *text)
{
    char before = '\n';
    for (char *at = text; *at != '\0'; before = *at++)
        if ((before == '\n' || before == '/') &&
            (strncmp(at, "F#", 2) == 0 || strncmp(at, "Gb", 2) == 0))
            *at -= 1;
}

/* Where the names are sharps, this is one of suffixes alone. */
static void put_a_sharp_for_every_flat(char *text)
{
    for (; *text != '\0'; text++)
        if (*text == 'b')
            *text = '#';
}

const struct own_fault faults_of_names[] = {
    {"other_names", .call = other_names},
    {"other_names_of_roots", .call = other_names_of_roots},
    {"other_names_of_basses", .call = other_names_of_basses},
    {"a_lower_letter", .edit = put_a_lower_letter},
    {"a_sharp_for_every_flat", .edit = put_a_sharp_for_every_flat},
    {.name = NULL},
};
