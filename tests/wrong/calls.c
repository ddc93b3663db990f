/* Calls that are wrong on purpose: the linker's --wrap puts them in the place of the drivers' one
   way to the library. WRONG=FUNCTION:FAULT in the environment says which function has which fault;
   the others are as they are. list.c lists the faults. */
#include <stdlib.h>
#include <string.h>

#include "answers.h"
#include "own_faults.h"

enum { RARE = 97, MOST_ROOM = 1200, WHILE = 2000 };

int64_t __wrap_call_library(const struct call *call, uint8_t *out);

static bool has(const char *fault, const char *name)
{
    return strcmp(fault, name) == 0;
}

/* The first refusal of a function that is not this answer; or the answer. */
static int64_t refusal_beside(const struct function *function, int64_t got)
{
    const struct refusal *at = function->refusals;
    for (; at->number != NO_REFUSAL; at++)
        if (refusal_answer(at, 0) != got)
            return refusal_answer(at, 0);
    return got;
}

/* Of the function's own if it has two, or of the next in the table. */
static int64_t other_refusal(const struct function *function, int64_t got)
{
    int64_t other = refusal_beside(function, got);
    for (unsigned at = 0; other == got && at < FUNCTIONS; at++)
        other = refusal_beside(&functions[at], got);
    return other;
}

/* Of the refusals that tell a place, the one of this answer, whose place may be above 255. */
static const struct refusal *placed(const struct function *function, int64_t got)
{
    const struct refusal *found = NULL;
    for (const struct refusal *at = function->refusals; at->number != NO_REFUSAL; at++)
        if (at->input != NO_INPUT && got <= refusal_answer(at, 0) &&
            (found == NULL || found->number < at->number))
            found = at;
    return found;
}

/* A refusal that tells a place, with another or with none. */
static int64_t displaced(const char *fault, const struct function *function, int64_t got)
{
    const struct refusal *refusal = placed(function, got);
    if (refusal == NULL)
        return got;
    if (has(fault, "places_from_1"))
        return got - 1;
    if (has(fault, "always_place_0"))
        return refusal_answer(refusal, 0);
    return has(fault, "no_place") ? -refusal->number : got;
}

/* Long enough there for another thread to come by. */
static void by_a_shared_buffer(uint8_t *out, size_t length)
{
    static uint8_t shared[MOST_ROOM];
    memcpy(shared, out, length);
    for (volatile int turn = 0; turn < WHILE; turn++)
        ;
    memcpy(out, shared, length);
}

/* A byte of the output that is not to be touched, or a wrong one that is. */
static void damage(const char *fault, const struct call *call, int64_t got, uint8_t *out)
{
    size_t room = (size_t)call->room, written = written_by(call, got);
    if (has(fault, "first_byte") && written > 0)
        out[0] ^= 1;
    if (has(fault, "last_byte") && written > 0)
        out[written - 1] ^= 1;
    if (has(fault, "behind_the_answer") && got >= 0 && written < room)
        out[written] ^= 1;
    if (has(fault, "after_a_refusal") && got < 0 && room > 0)
        out[room / 2] ^= 1;
    if (has(fault, "behind_the_room"))
        out[room] ^= 1;
    if (has(fault, "before_the_room"))
        out[-1] ^= 1;
    if (has(fault, "by_a_shared_buffer") && written <= MOST_ROOM)
        by_a_shared_buffer(out, written);
}

static void swap_words(uint8_t *out, size_t one, size_t other)
{
    uint64_t *words = (uint64_t *)out;
    uint64_t word = words[one];
    words[one] = words[other];
    words[other] = word;
}

/* The call with the numbers, the inputs or the words of two parameters exchanged. */
static int64_t call_swapped(const char *places, const struct call *call, uint8_t *out)
{
    const struct parameter *parameters = call->function->parameters;
    char *behind;
    const struct parameter *one = &parameters[strtoul(places, &behind, 10)];
    const struct parameter *other = &parameters[strtoul(behind + 1, NULL, 10)];
    struct call swapped = *call;
    int64_t numbers[MOST_PARAMETERS];
    struct range inputs[MOST_INPUTS];
    for (size_t at = 0; at < call->count; at++)
        numbers[at] = call->numbers[at];
    for (size_t at = 0; at < call->input_count; at++)
        inputs[at] = call->inputs[at];
    if (one->kind == AN_INPUT) {
        inputs[one->at] = call->inputs[other->at];
        inputs[other->at] = call->inputs[one->at];
    } else if (one->kind != A_WORD) {
        numbers[one->at] = call->numbers[other->at];
        numbers[other->at] = call->numbers[one->at];
    }
    swapped.numbers = numbers;
    swapped.inputs = inputs;
    int64_t got = __real_call_library(&swapped, out);
    if (one->kind == A_WORD)
        swap_words(out, one->at, other->at);
    return got;
}

static int64_t call_wrongly(const char *fault, const struct call *call, uint8_t *out)
{
    static unsigned calls;
    static const char swapped[] = "swapped_parameters_";
    bool now = ++calls % RARE == 0;
    const struct own_fault *own;
    for (unsigned at = 0; (own = own_fault(call->function, at)) != NULL; at++)
        if (has(fault, own->name))
            return call_with(own, call, out);
    if (strncmp(fault, swapped, sizeof swapped - 1) == 0)
        return call_swapped(fault + sizeof swapped - 1, call, out);
    int64_t got = __real_call_library(call, out);
    if (out != NULL)
        damage(fault, call, got, out);
    if (has(fault, "one_more") || (has(fault, "now_and_then") && now))
        return got < 0 ? other_refusal(call->function, got) : got + 1;
    if (has(fault, "other_refusal") && got < 0)
        return other_refusal(call->function, got);
    if (has(fault, "refuses_always"))
        return out == NULL ? other_refusal(call->function, 0) : -HEMOTUSAP_NO_ROOM;
    return displaced(fault, call->function, got);
}

int64_t __wrap_call_library(const struct call *call, uint8_t *out)
{
    const char *wrong = getenv("WRONG");
    size_t length = strlen(call->function->name);
    if (wrong == NULL || strncmp(wrong, call->function->name, length) != 0 || wrong[length] != ':')
        return __real_call_library(call, out);
    return call_wrongly(wrong + length + 1, call, out);
}
