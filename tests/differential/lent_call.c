#include "lent_call.h"

#include "fault.h"

static struct lent inputs[MOST_INPUTS];
static struct lent output;

/* NULL is for empty ranges alone: beside one, the others stand between canaries. */
static uint8_t *lend_in(struct lent *lent, enum place place, const uint8_t *content, size_t length)
{
    if (lent->end == NULL)
        *lent = lent_open(MOST_LENT);
    return lend(lent, place == NOWHERE && length > 0 ? BETWEEN_CANARIES : place, content, length);
}

static void lend_inputs(const struct call *call, enum place place, struct range lent[MOST_INPUTS])
{
    if (call->input_count > MOST_INPUTS)
        fail("%s has more inputs than can be lent", call->name);
    for (size_t at = 0; at < call->input_count; at++) {
        struct range input = call->inputs[at];
        lent[at].bytes = lend_in(&inputs[at], place, input.bytes, input.length);
        lent[at].length = input.length;
    }
}

static void expect_range(struct run *run, const struct call *call, const char *which,
                         const struct lent *lent, const uint8_t *want, size_t length)
{
    struct difference first;
    if (!lent_holds(lent, want, length, &first))
        mismatch(run, call, "byte %td from the %s's start is 0x%02x, expected 0x%02x", first.at,
                 which, first.found, first.wanted);
}

const uint8_t *lent_output(void)
{
    return output.range;
}

void expect_output(struct run *run, const struct call *call, const uint8_t *want, size_t length)
{
    expect_range(run, call, "output", &output, want, length);
}

bool call_lent(struct run *run, const struct call *call, enum place place, const uint8_t *old,
               int64_t *got)
{
    struct range lent[MOST_INPUTS];
    struct call with_lent = *call;
    with_lent.inputs = lent;
    lend_inputs(call, place, lent);
    uint8_t *out = NULL;
    if (call->room != NO_OUTPUT)
        out = lend_in(&output, place, old, (size_t)call->room);
    if (!called_without_fault(&with_lent, out, got)) {
        mismatch(run, call, "touched memory that it was not lent");
        return false;
    }
    for (size_t at = 0; at < call->input_count; at++)
        expect_range(run, call, "input", &inputs[at], NULL, 0);
    return true;
}
