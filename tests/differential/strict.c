#include "strict.h"

#include <string.h>

#include "answers.h"
#include "draw.h"
#include "length.h"
#include "lists.h"
#include "written.h"

enum { FIRST_BAD = LAST_KEY + 1, SHORT = 8, LONGEST = 65536 + 16, MOST_ROOM = 1024 };

/* As a host gets it, but for the sign. */
static int64_t told(size_t place)
{
    return -placed_answer(HEMOTUSAP_NOT_A_KEY, place);
}

/* The length, where every code is a key. */
static size_t first_bad(struct range list)
{
    size_t place = 0;
    while (place < list.length && list.bytes[place] <= LAST_KEY)
        place++;
    return place;
}

void expect_strict_in(struct run *run, const struct call *call, const struct lines *want,
                      size_t room)
{
    size_t place = first_bad(call->inputs[0]);
    if (place == call->inputs[0].length)
        expect_written_in(run, call, want->text, want->length, room);
    else
        expect_unwritten_in(run, call, told(place), room);
}

/* In no room, in too little and in enough: the code is looked at first. */
static void expect_told(struct run *run, const uint8_t *codes, size_t length, int64_t refusal)
{
    static const size_t rooms[] = {0, 1, MOST_ROOM};
    const struct range list = {codes, length};
    for (unsigned at = 0; at < LENGTH(rooms); at++) {
        expect_unwritten_in(run, CALL_ON(candidates_strict, &list), refusal, rooms[at]);
        expect_unwritten_in(run, CALL_ON(candidates_strict_sharp, &list), refusal, rooms[at]);
    }
}

/* The last key among them. */
static void draw_keys(struct run *run, uint8_t *keys, size_t length)
{
    uint64_t state = draws_of(run->seed, length);
    for (size_t at = 0; at < length; at++)
        keys[at] = (uint8_t)draw_below(&state, FIRST_BAD);
    keys[length / 2] = LAST_KEY;
}

/* Every code that is no key, at this place of a list that is good but for it. */
static void each_at(struct run *run, uint8_t *codes, size_t length, size_t place)
{
    uint8_t key = codes[place];
    for (unsigned bad = FIRST_BAD; bad <= LAST_CODE; bad++) {
        codes[place] = (uint8_t)bad;
        expect_told(run, codes, length, told(place));
    }
    codes[place] = key;
}

/* Two of them, the lower and the higher one first. */
static void two_at(struct run *run, uint8_t *codes, size_t length, size_t place, size_t behind)
{
    uint8_t key = codes[place], other = codes[behind];
    codes[place] = FIRST_BAD;
    codes[behind] = LAST_CODE;
    expect_told(run, codes, length, told(place));
    codes[place] = LAST_CODE;
    codes[behind] = FIRST_BAD;
    expect_told(run, codes, length, told(place));
    codes[place] = key;
    codes[behind] = other;
}

static void short_lists(struct run *run)
{
    uint8_t codes[SHORT];
    for (size_t length = 1; length <= SHORT; length++) {
        draw_keys(run, codes, length);
        for (size_t place = 0; place < length; place++) {
            each_at(run, codes, length, place);
            for (size_t behind = place + 1; behind < length; behind++)
                two_at(run, codes, length, place, behind);
        }
    }
}

/* What a host gets, in full: a place cut to a byte or two would be another. First the bad code is
   the last one, then good ones stand behind it, then bad ones. */
static void long_lists(struct run *run)
{
    static const struct {
        size_t place;
        int64_t refusal;
    } rows[] = {{255, 3071}, {256, 3072}, {257, 3073},     {300, 3116},
                {511, 3327}, {512, 3328}, {65535, 68351}, {65536, 68352}};
    static uint8_t codes[LONGEST];
    for (unsigned at = 0; at < LENGTH(rows); at++) {
        size_t place = rows[at].place;
        draw_keys(run, codes, LONGEST);
        codes[place] = FIRST_BAD;
        expect_told(run, codes, place + 1, rows[at].refusal);
        expect_told(run, codes, place + 9, rows[at].refusal);
        memset(codes + place + 1, LAST_CODE, 8);
        expect_told(run, codes, place + 9, rows[at].refusal);
    }
}

void bad_codes(struct run *run)
{
    short_lists(run);
    long_lists(run);
}
