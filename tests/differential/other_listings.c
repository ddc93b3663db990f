#include "other_listings.h"

#include <string.h>

#include "draw.h"
#include "length.h"
#include "lent_call.h"
#include "line_calls.h"

enum { SHORT = 40, APART = 4 };

/* Those that a reader may take for an LF, or for the end. */
static const uint8_t like_an_lf[] = {'\n', '\n' + 128, '\n' - 1, '\n' + 1, '\r', 0, 255, 'b'};

static uint8_t drawn_byte(uint64_t *state, uint32_t kind)
{
    uint8_t any = (uint8_t)draw_below(state, 256);
    switch (kind) {
    case 0:
        return '\n';
    case 1:
        return any == '\n' ? '\n' + 128 : any;
    case 2:
        return draw_below(state, 4) == 0 ? '\n' : any;
    case 3:
        return like_an_lf[any % LENGTH(like_an_lf)];
    default:
        return any;
    }
}

static struct range drawn_listing(uint64_t *state, uint8_t bytes[SHORT])
{
    uint32_t kind = draw_below(state, 5);
    const struct range listing = {bytes, draw_below(state, SHORT + 1)};
    for (size_t at = 0; at < listing.length; at++)
        bytes[at] = drawn_byte(state, kind);
    return listing;
}

static int64_t lines_of(struct range listing)
{
    int64_t count = 0;
    for (size_t at = 0; at < listing.length; at++)
        count += listing.bytes[at] == '\n';
    return count;
}

/* To one past the last line of both, in a drawn key of either kind. */
static void drawn_pair(struct run *run, uint64_t state)
{
    uint8_t bytes[LISTINGS][SHORT];
    struct range listings[LISTINGS];
    int64_t most = 0;
    for (unsigned at = 0; at < LISTINGS; at++) {
        listings[at] = drawn_listing(&state, bytes[at]);
        if (most < lines_of(listings[at]))
            most = lines_of(listings[at]);
    }
    int64_t flats = -(int64_t)draw_below(&state, MOST_FIFTHS + 1);
    int64_t sharps = 1 + draw_below(&state, MOST_FIFTHS);
    for (int64_t number = 0; number <= most; number++) {
        expect_line(run, listings, number, flats);
        expect_line(run, listings, number, sharps);
    }
}

static struct range with_lines(uint8_t *bytes, const size_t *lengths, unsigned count)
{
    struct range listing = {bytes, 0};
    for (unsigned at = 0; at < count; at++) {
        memset(bytes + listing.length, 'A' + (int)at, lengths[at]);
        listing.length += lengths[at];
        bytes[listing.length++] = '\n';
    }
    return listing;
}

static void long_lines(struct run *run)
{
    enum { LINES = 5 };
    static const size_t lengths[LISTINGS][LINES] = {{255, 256, 257, 65535, 3},
                                                    {0, 65536, 300, 1, 60000}};
    static uint8_t bytes[LISTINGS][MOST_LENT];
    struct range listings[LISTINGS];
    for (unsigned at = 0; at < LISTINGS; at++)
        listings[at] = with_lines(bytes[at], lengths[at], LINES);
    for (int64_t number = 0; number <= LINES; number += 2)
        expect_lines_around(run, listings, number);
}

/* Empty ones, so that the number is also where the line begins. */
static void many_lines(struct run *run)
{
    static const size_t counts[] = {255, 256, 257, 65535, 65536, 65537, 70000};
    static uint8_t bytes[70000];
    memset(bytes, '\n', sizeof bytes);
    for (unsigned at = 0; at < LENGTH(counts); at++) {
        const struct range fewer = {bytes, counts[at]}, more = {bytes, sizeof bytes};
        for (unsigned number = 0; number <= at; number++) {
            expect_lines_around(run, (struct range[]){fewer, more}, (int64_t)counts[number]);
            expect_lines_around(run, (struct range[]){more, fewer}, (int64_t)counts[number]);
        }
    }
}

void other_listings(struct run *run)
{
    for (uint64_t number = 0; number < run->count; number += APART)
        drawn_pair(run, draws_of(run->seed, number));
    long_lines(run);
    many_lines(run);
}

void other_keys(struct run *run, const struct range *listings)
{
    for (int bit = 4; bit < 32; bit++)
        for (int64_t near = -MOST_FIFTHS; near <= MOST_FIFTHS; near++) {
            int64_t above = (INT64_C(1) << bit) + near, below = near - (INT64_C(1) << bit);
            if (above <= INT32_MAX)
                expect_line(run, listings, 0, above);
            if (below >= INT32_MIN)
                expect_line(run, listings, 0, below);
        }
}
