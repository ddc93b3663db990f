#include "answers.h"

#include <string.h>

#include "chosen_line.h"

/* A byte above those that are good, by the refusal that tells its place; NULL: there is none. */
struct bad_byte {
    const struct refusal *refusal;
    size_t place;
};

int64_t placed_answer(int64_t number, size_t place)
{
    return -(256 * number + (int64_t)place);
}

int64_t refusal_answer(const struct refusal *refusal, size_t place)
{
    return refusal->input == NO_INPUT ? -refusal->number : placed_answer(refusal->number, place);
}

static bool is_bad(const struct call *call, int input, size_t place)
{
    const struct parameter *at = call->function->parameters;
    for (; at->kind != NO_PARAMETER; at++)
        if (at->kind == AN_INPUT && at->at == (size_t)input)
            return call->inputs[input].bytes[place] > at->high;
    return false;
}

/* Of the inputs with a placed refusal, the shortest's; without such a refusal, none. */
static size_t used_places(const struct call *call)
{
    size_t used = SIZE_MAX;
    for (const struct refusal *at = call->function->refusals; at->number != NO_REFUSAL; at++)
        if (at->input != NO_INPUT && call->inputs[at->input].length < used)
            used = call->inputs[at->input].length;
    return used == SIZE_MAX ? 0 : used;
}

static struct bad_byte first_bad(const struct call *call)
{
    size_t used = used_places(call);
    for (size_t place = 0; place < used; place++)
        for (const struct refusal *at = call->function->refusals; at->number != NO_REFUSAL; at++)
            if (at->input != NO_INPUT && is_bad(call, at->input, place))
                return (struct bad_byte){at, place};
    return (struct bad_byte){NULL, 0};
}

unsigned refusal_at(const struct call *call, int64_t answer)
{
    const struct refusal *refusals = call->function->refusals;
    const struct bad_byte bad = first_bad(call);
    unsigned at = 0;
    for (; refusals[at].number != NO_REFUSAL && &refusals[at] != bad.refusal; at++)
        if (refusals[at].input == NO_INPUT && answer == -refusals[at].number)
            return at;
    if (bad.refusal != NULL && answer == refusal_answer(bad.refusal, bad.place))
        return at;
    return MOST_REFUSALS;
}

/* Of candidate_line the rule alone tells all. */
static bool may_write(const struct call *call, int64_t answer, const uint8_t *out)
{
    if (call->function != &functions[FUNCTION_candidate_line])
        return true;
    const struct chosen_line want = chosen_line(call);
    return answer == want.listing && memcmp(out, want.words, sizeof want.words) == 0;
}

bool may_answer(const struct call *call, int64_t answer, const uint8_t *out)
{
    const struct answers *answers = &call->function->answers;
    bool writes = function_writes(call->function);
    if (answer < 0)
        return refusal_at(call, answer) != MOST_REFUSALS &&
               (answer != -HEMOTUSAP_NO_ROOM || call->room < answers->high);
    return first_bad(call).refusal == NULL && answer >= answers->low && answer <= answers->high &&
           answer % answers->unit <= answers->most_left && (!writes || answer <= call->room) &&
           may_write(call, answer, out);
}

size_t written_by(const struct call *call, int64_t answer)
{
    if (answer < 0)
        return 0;
    return function_writes(call->function) ? (size_t)answer : function_word_bytes(call->function);
}
