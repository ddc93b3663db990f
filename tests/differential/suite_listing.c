/* listing, by the inverse of the oracle's suffixes: every suffix, texts near one, long texts, and
   drawn ones. A call is as slow as the suffixes of all sets, so the command's count is divided by
   DRAWN_PART. */
#include <string.h>

#include "draw.h"
#include "length.h"
#include "suffixes.h"
#include "suite.h"
#include "written.h"

enum { SUFFIXES = 1171, LONGEST_TEXT = 65537, LONGEST_DRAWN = 80, DRAWN_PART = 10 };

static const char alphabet[] = "#()+,135679Mabdimostu"; /* of all suffixes */

static void in_room(struct run *run, struct range text, const struct suffix *want, size_t room)
{
    expect_written_in(run, CALL_ON(listing, &text), want->sets, want->listed, room);
}

/* Mostly no suffix, so that the exact room is none; in one beyond it, a byte written would show. */
static void any_text(struct run *run, struct range text, uint64_t *state)
{
    const struct suffix *want = suffix_of(text);
    in_room(run, text, want, want->listed + draw_below(state, 3));
}

static void every_suffix(struct run *run)
{
    if (suffix_count() != SUFFIXES)
        fail("the oracle has %u suffixes, expected %d", suffix_count(), SUFFIXES);
    for (unsigned at = 0; at < SUFFIXES; at++) {
        const struct suffix *suffix = suffix_at(at);
        const struct range text = {suffix->text, suffix->length};
        in_room(run, text, suffix, suffix->listed);
        in_room(run, text, suffix, suffix->listed - 1);
        in_room(run, text, suffix, suffix->listed + 1);
        in_room(run, text, suffix, 0);
    }
}

/* Of the library's own list: it holds rooted sets alone, and none that a list before it held. */
static void mark_sets(struct run *run, struct range text, bool seen[SETS])
{
    uint8_t sets[2 * MOST_SETS];
    struct call call = *CALL_ON(listing, &text);
    call.room = sizeof sets;
    int64_t length = call_library(&call, sets);
    if (length < 0 || length % 2 != 0 || length > (int64_t)sizeof sets)
        mismatch(run, &call, "answered %d", (int)length);
    for (int64_t at = 0; at + 1 < length; at += 2) {
        unsigned set = sets[at] * 256u + sets[at + 1];
        if (set >= SETS || set % 2 == 0 || seen[set])
            mismatch(run, &call, "lists %u, no rooted set or in a list before", set);
        else
            seen[set] = true;
    }
}

static void each_set_once(struct run *run)
{
    bool seen[SETS] = {false};
    for (unsigned at = 0; at < suffix_count(); at++)
        mark_sets(run, (struct range){suffix_at(at)->text, suffix_at(at)->length}, seen);
    for (uint32_t set = 1; set < SETS; set += 2)
        expect_answer(run, REQUEST("listing of any suffix holds", NULL, set), seen[set], true);
}

static uint8_t drawn_sign(uint64_t *state)
{
    return (uint8_t)alphabet[draw_below(state, sizeof alphabet - 1)];
}

/* A byte made another: one that differs in a single bit, and one of a suffix's signs. */
static void damaged(struct run *run, const struct suffix *suffix, uint64_t *state)
{
    uint8_t text[LONGEST_SUFFIX];
    uint32_t at = draw_below(state, (uint32_t)suffix->length);
    memcpy(text, suffix->text, suffix->length);
    text[at] ^= (uint8_t)(1 << draw_below(state, 8));
    any_text(run, (struct range){text, suffix->length}, state);
    do
        text[at] = drawn_sign(state);
    while (text[at] == suffix->text[at]);
    any_text(run, (struct range){text, suffix->length}, state);
}

/* Without its last byte, cut at a drawn place, and without its first. */
static void truncated(struct run *run, const struct suffix *suffix, uint64_t *state)
{
    uint32_t length = (uint32_t)suffix->length;
    any_text(run, (struct range){suffix->text, length - 1}, state);
    any_text(run, (struct range){suffix->text, draw_below(state, length)}, state);
    any_text(run, (struct range){suffix->text + 1, length - 1}, state);
}

/* By NUL, which ends no text here, by a sign, and by one in front. */
static void extended(struct run *run, const struct suffix *suffix, uint64_t *state)
{
    uint8_t text[LONGEST_SUFFIX + 1] = {0};
    const struct range longer = {text, suffix->length + 1};
    memcpy(text, suffix->text, suffix->length);
    any_text(run, longer, state);
    text[suffix->length] = drawn_sign(state);
    any_text(run, longer, state);
    memcpy(text + 1, suffix->text, suffix->length);
    text[0] = drawn_sign(state);
    any_text(run, longer, state);
}

static void near_suffixes(struct run *run)
{
    for (unsigned at = 0; at < suffix_count(); at++) {
        const struct suffix *suffix = suffix_at(at);
        uint64_t state = draws_of(run->seed, at);
        extended(run, suffix, &state);
        if (suffix->length == 0)
            continue;
        damaged(run, suffix, &state);
        truncated(run, suffix, &state);
    }
}

/* A length cut to fewer bits would leave a suffix: the empty one, `6`, or the longest. */
static void long_texts(struct run *run)
{
    static const size_t lengths[] = {28, 64, 65, 256, 257, 283, 1000, 65536, LONGEST_TEXT};
    static uint8_t text[LONGEST_TEXT];
    const struct suffix *longest = suffix_at(suffix_count() - 1);
    uint64_t state = run->seed;
    for (unsigned at = 0; at < LENGTH(lengths); at++) {
        memset(text, '6', sizeof text);
        any_text(run, (struct range){text, lengths[at]}, &state);
        memcpy(text, longest->text, longest->length);
        any_text(run, (struct range){text, lengths[at]}, &state);
    }
}

/* By turns of a suffix's signs and of all bytes. */
static void drawn_texts(struct run *run)
{
    uint8_t text[LONGEST_DRAWN];
    for (uint64_t number = 0; number < run->count / DRAWN_PART; number++) {
        uint64_t state = draws_of(run->seed, number);
        size_t length = draw_below(&state, LONGEST_DRAWN + 1);
        for (size_t at = 0; at < length; at++)
            text[at] = number % 2 == 0 ? drawn_sign(&state) : (uint8_t)draw(&state);
        any_text(run, (struct range){text, length}, &state);
    }
}

static void every_text(struct run *run)
{
    if (!suffixes_ask(run))
        return;
    every_suffix(run);
    each_set_once(run);
    near_suffixes(run);
    long_texts(run);
    drawn_texts(run);
}

/* Four sets of one text, which 8 bytes hold and 7 do not; plain major, whose text is empty. */
static void stated_lists(struct run *run)
{
    static const uint8_t sets[] = {5, 17, 5, 145, 13, 17, 13, 145}, major[] = {0, 145};
    const struct range text = {(const uint8_t *)"7(b13)", 6}, empty = {NULL, 0};
    expect_written(run, CALL_ON(listing, &text), sets, sizeof sets);
    expect_written(run, CALL_ON(listing, &empty), major, sizeof major);
}

const struct suite listing_suite = {"listing", every_text, stated_lists};
