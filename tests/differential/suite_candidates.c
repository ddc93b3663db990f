/* The four calls that write candidates, candidate_count and candidate, by the oracle: every set of
   classes with every first class, long lists, and drawn ones, of which there are as many as the
   command says. */
#include <stdbool.h>
#include <string.h>

#include "candidate_calls.h"
#include "draw.h"
#include "length.h"
#include "listing_rooms.h"
#include "lists.h"
#include "numbers_above.h"
#include "strict.h"
#include "suite.h"
#include "written.h"

static void lines_of(struct run *run, struct range list, bool every_room, uint64_t state)
{
    const char *answer = oracle_answer(run, CALL_ON(candidates, &list));
    if (answer == NULL)
        return;
    const struct listings want = listings_in(answer);
    if (every_room)
        expect_in_every_room(run, &list, &want);
    expect_in_some_rooms(run, &list, &want, state);
    expect_number(run, CALL_ON(candidate_count, &list), want.flat.count);
}

/* Every number up to one past the last, and any beyond; the oracle holds the parts to the lines. */
static void parts_of(struct run *run, struct range list, uint64_t state)
{
    struct call asked = *CALL_ON(candidate, &list);
    asked.name = "candidate_parts";
    const char *answer = oracle_answer(run, &asked);
    if (answer == NULL)
        return;
    struct parts want = parts_in(answer);
    for (uint32_t number = 0; number < want.count; number++)
        expect_candidate(run, &list, number, want.packed[number]);
    expect_candidate(run, &list, want.count, 0);
    expect_candidate(run, &list, want.count + draw_below(&state, UINT32_MAX - want.count), 0);
}

static void one_list(struct run *run, struct range list, bool every_room, uint64_t state)
{
    lines_of(run, list, every_room, state);
    parts_of(run, list, state);
}

/* In codes of all octaves, and in keys. */
static void set_with_first(struct run *run, uint32_t set, unsigned first)
{
    static const unsigned octaves[] = {OCTAVES, KEY_OCTAVES};
    uint32_t number = set * CLASSES + first;
    for (unsigned at = 0; at < LENGTH(octaves); at++) {
        struct list list = list_of_set(set, first, octaves[at]);
        one_list(run, (struct range){list.codes, list.length}, is_one_of_few(set, first),
                 draws_of(run->seed, number));
    }
}

static void sets_with_first(struct run *run)
{
    one_list(run, (struct range){NULL, 0}, true, run->seed);
    for (uint32_t set = 1; set < SETS; set++)
        for (unsigned first = 0; first < CLASSES; first++)
            if (set >> first & 1)
                set_with_first(run, set, first);
}

/* The second class is the last code's alone: a length cut to one or two bytes would lose it. */
static void long_lists(struct run *run)
{
    static const size_t lengths[] = {255, 256, 257, 65535, 65536, 65537};
    static uint8_t codes[65537];
    for (unsigned at = 0; at < LENGTH(lengths); at++) {
        memset(codes, 60, sizeof codes);
        codes[lengths[at] - 1] = 67;
        one_list(run, (struct range){codes, lengths[at]}, false, draws_of(run->seed, at));
    }
}

/* The last key alone, and as every code. */
static void lists_of_the_last_key(struct run *run)
{
    static const size_t lengths[] = {1, 2, 255, 256, 257, 400};
    uint8_t codes[400];
    memset(codes, LAST_KEY, sizeof codes);
    for (unsigned at = 0; at < LENGTH(lengths); at++)
        one_list(run, (struct range){codes, lengths[at]}, true, draws_of(run->seed, at));
}

static void drawn_lists(struct run *run)
{
    for (uint64_t number = 0; number < run->count; number++) {
        uint64_t state = draws_of(run->seed, number);
        struct list list = drawn_list(&state);
        one_list(run, (struct range){list.codes, list.length}, false, state);
    }
}

static void every_list(struct run *run)
{
    sets_with_first(run);
    long_lists(run);
    lists_of_the_last_key(run);
    drawn_lists(run);
}

static struct lines as_lines(const char *text)
{
    struct lines lines = {.length = strlen(text)};
    memcpy(lines.text, text, lines.length);
    return lines;
}

static void stated_listings(struct run *run, const struct range *list, const char *flat,
                            const char *sharp)
{
    const struct listings want = {as_lines(flat), as_lines(sharp)};
    expect_in_every_room(run, list, &want);
}

/* Paper 01, "Engraver's proof sheet". */
static void the_papers_list(struct run *run)
{
    static const uint8_t codes[] = {60, 64, 67};
    static const char text[] = "C\nEmi(b6,omit5)/C\nG6sus(omit5)/C\n";
    const struct range list = {codes, sizeof codes};
    stated_listings(run, &list, text, text);
    expect_number(run, CALL_ON(candidate_count, &list), 3);
    expect_candidate(run, &list, 0, 15 * 65536 + 0 * 4096 + 145);
    expect_candidate(run, &list, 1, 0 * 65536 + 4 * 4096 + 265);
    expect_candidate(run, &list, 2, 0 * 65536 + 7 * 4096 + 545);
}

/* The same chord in D, over its third: a black key is root, then bass, and "b6" is no name. */
static void a_list_with_a_black_key(struct run *run)
{
    static const uint8_t codes[] = {66, 62, 69};
    const struct range list = {codes, sizeof codes};
    stated_listings(run, &list, "Gbmi(b6,omit5)\nD/Gb\nA6sus(omit5)/Gb\n",
                    "F#mi(b6,omit5)\nD/F#\nA6sus(omit5)/F#\n");
}

/* Of a list of all classes, so that a number cut to fewer bits would be one of its candidates. */
static void expect_no_candidate(struct run *run, int64_t number)
{
    struct list all = list_of_set(ALL_CLASSES, 0, OCTAVES);
    expect_candidate(run, &(const struct range){all.codes, all.length}, number, 0);
}

static void stated_candidates(struct run *run)
{
    the_papers_list(run);
    a_list_with_a_black_key(run);
    numbers_above(run, CLASSES, expect_no_candidate);
    bad_codes(run);
}

const struct suite candidates_suite = {"candidates", every_list, stated_candidates};
