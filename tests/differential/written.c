#include "written.h"

#include "lent_call.h"

/* What is to come of one call: a refusal, or else this answer, with this text written. */
struct outcome {
    int64_t refusal; /* or NO_REFUSAL */
    int64_t answer;
    const uint8_t *text;
    size_t length;
};

static uint8_t old[MOST_LENT];

/* Old bytes unlike the wanted ones, so that a byte left unwritten shows. */
static void make_old(const struct outcome *outcome, size_t room)
{
    if (room > MOST_LENT)
        fail("a room of %zu is more than the driver has", room);
    for (size_t at = 0; at < room; at++)
        old[at] = at < outcome->length ? (uint8_t)~outcome->text[at] : (uint8_t)(0x5A ^ (at * 37));
}

static void attempt(struct run *run, const struct call *call, const struct outcome *outcome,
                    enum place place)
{
    int64_t got;
    bool writes = call->room != NO_OUTPUT;
    bool refused = outcome->refusal != NO_REFUSAL;
    if (writes)
        make_old(outcome, (size_t)call->room);
    if (!call_lent(run, call, place, old, &got))
        return;
    if (refused)
        expect_refusal(run, call, got, outcome->refusal);
    else
        expect_answer(run, call, got, outcome->answer);
    if (writes)
        expect_output(run, call, outcome->text, refused ? 0 : outcome->length);
}

static bool has_empty_range(const struct call *call)
{
    for (size_t at = 0; at < call->input_count; at++)
        if (call->inputs[at].length == 0)
            return true;
    return call->room == 0;
}

/* Without a range there are no places: one call tells all. */
static void attempt_everywhere(struct run *run, const struct call *call,
                               const struct outcome *outcome)
{
    attempt(run, call, outcome, BETWEEN_CANARIES);
    if (call->input_count == 0 && call->room == NO_OUTPUT)
        return;
    attempt(run, call, outcome, BEFORE_FAULTING_PAGE);
    if (has_empty_range(call))
        attempt(run, call, outcome, NOWHERE);
}

static struct call with_room(const struct call *call, size_t room)
{
    struct call roomy = *call;
    roomy.room = (int64_t)room;
    return roomy;
}

void expect_written_in(struct run *run, const struct call *call, const uint8_t *want, size_t length,
                       size_t room)
{
    const struct call roomy = with_room(call, room);
    const int64_t refusal = room < length ? HEMOTUSAP_NO_ROOM : NO_REFUSAL;
    const struct outcome outcome = {refusal, (int64_t)length, want, length};
    attempt_everywhere(run, &roomy, &outcome);
}

void expect_written(struct run *run, const struct call *call, const uint8_t *want, size_t length)
{
    for (size_t room = 0; room <= length + 1; room++)
        expect_written_in(run, call, want, length, room);
}

void expect_unwritten_in(struct run *run, const struct call *call, int64_t refusal, size_t room)
{
    const struct call roomy = with_room(call, room);
    expect_refused(run, &roomy, refusal);
}

void expect_unwritten(struct run *run, const struct call *call, int64_t refusal, size_t most)
{
    for (size_t room = 0; room <= most; room++)
        expect_unwritten_in(run, call, refusal, room);
}

void expect_words(struct run *run, const struct call *call, int64_t want, const uint64_t *words)
{
    const size_t length = function_word_bytes(call->function);
    const struct call roomy = with_room(call, length);
    const struct outcome outcome = {NO_REFUSAL, want, (const uint8_t *)words, length};
    attempt_everywhere(run, &roomy, &outcome);
}

void expect_number(struct run *run, const struct call *call, int64_t want)
{
    attempt_everywhere(run, call, &(const struct outcome){.answer = want});
}

void expect_refused(struct run *run, const struct call *call, int64_t refusal)
{
    attempt_everywhere(run, call, &(const struct outcome){.refusal = refusal});
}
