#include "line_calls.h"

#include "draw.h"
#include "written.h"

enum { BEYOND = MOST_FIFTHS + 1 };

static struct call call_of(const struct range *listings, const int64_t numbers[NUMBERS])
{
    struct call call = *CALL_ON(candidate_line, listings);
    call.input_count = LISTINGS;
    call.numbers = numbers;
    call.count = NUMBERS;
    return call;
}

void expect_this_line(struct run *run, const struct range *listings, int64_t number, int64_t fifths,
                      const struct chosen_line *want)
{
    const int64_t numbers[] = {number, fifths};
    const struct call call = call_of(listings, numbers);
    expect_words(run, &call, want->listing, want->words);
}

void expect_line(struct run *run, const struct range *listings, int64_t number, int64_t fifths)
{
    const int64_t numbers[] = {number, fifths};
    const struct call call = call_of(listings, numbers);
    const struct chosen_line want = chosen_line(&call);
    expect_words(run, &call, want.listing, want.words);
}

void expect_lines_around(struct run *run, const struct range *listings, int64_t number)
{
    for (int64_t near = number == 0 ? 0 : number - 1; near <= number + 1; near++) {
        expect_line(run, listings, near, 0);
        expect_line(run, listings, near, 1);
    }
}

static uint32_t drawn_word(uint64_t *state)
{
    return (uint32_t)(draw(state) >> 32);
}

void expect_lines_up_to(struct run *run, const struct range *listings, int64_t number,
                        uint64_t state)
{
    for (int64_t fifths = -BEYOND; fifths <= BEYOND; fifths++) {
        for (int64_t up_to = 0; up_to <= number; up_to++)
            expect_line(run, listings, up_to, fifths);
        expect_line(run, listings, drawn_word(&state), fifths);
    }
    int32_t any = (int32_t)drawn_word(&state);
    expect_line(run, listings, draw_below(&state, (uint32_t)number + 1), any);
}
