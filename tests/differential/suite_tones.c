/* tones, their letters and counts by the oracle: every rooted set above every root; bad sets are
   refused before bad roots, and both before the room is looked at. */
#include <string.h>

#include "draw.h"
#include "length.h"
#include "numbers_above.h"
#include "oracle_lines.h"
#include "suite.h"
#include "written.h"

/* Of the pairs one in EVERY_ROOM is tried in every room, and those of all classes. */
enum { ROOTS = 12, SETS = 4096, EVERY_ROOM = 61, LONGEST = HEMOTUSAP_TONES_ROOM };

/* The exact room, one less, and a drawn one. */
static void in_some_rooms(struct run *run, const struct call *call, const struct names *want,
                          uint64_t state)
{
    const size_t length = want->length;
    const size_t rooms[] = {length, length - 1, draw_below(&state, 2 * LONGEST)};
    if (length == 0 || length > LONGEST)
        fail("the oracle's tones `%.*s` are of no length that tones have", (int)length, want->text);
    for (unsigned at = 0; at < LENGTH(rooms); at++)
        expect_written_in(run, call, (const uint8_t *)want->text, length, rooms[at]);
}

static void one_pair(struct run *run, uint32_t root, uint32_t set)
{
    uint32_t number = root * SETS + set;
    const struct call *call = CALL(tones, root, set);
    const char *answer = oracle_answer(run, call);
    if (answer == NULL)
        return;
    const struct names want = names_in(answer);
    in_some_rooms(run, call, &want, draws_of(run->seed, number));
    if (number % EVERY_ROOM == 0 || set == SETS - 1)
        expect_written(run, call, (const uint8_t *)want.text, want.length);
}

static void every_pair(struct run *run)
{
    for (uint32_t root = 0; root < ROOTS; root++)
        for (uint32_t set = 1; set < SETS; set += 2)
            one_pair(run, root, set);
}

static void refused(struct run *run, int64_t root, int64_t set, int64_t refusal)
{
    static const size_t rooms[] = {0, 1, LONGEST};
    for (unsigned at = 0; at < LENGTH(rooms); at++)
        expect_unwritten_in(run, CALL(tones, root, set), refusal, rooms[at]);
}

/* A root that is bad too changes nothing. */
static void refuse_set(struct run *run, int64_t set)
{
    static const int64_t roots[] = {0, ROOTS - 1, ROOTS, 255, UINT32_MAX};
    for (unsigned at = 0; at < LENGTH(roots); at++)
        refused(run, roots[at], set, HEMOTUSAP_NOT_A_SET);
}

static void refuse_root(struct run *run, int64_t root)
{
    static const int64_t sets[] = {1, 145, SETS - 1};
    for (unsigned at = 0; at < LENGTH(sets); at++)
        refused(run, root, sets[at], HEMOTUSAP_BAD_CLASS);
}

static void stated_text(struct run *run, int64_t root, int64_t set, const char *text)
{
    expect_written(run, CALL(tones, root, set), (const uint8_t *)text, strlen(text));
}

static void stated_tones(struct run *run)
{
    stated_text(run, 0, 73, "C Eb Gb");
    stated_text(run, 6, 137, "Gb Bbb Db");
    stated_text(run, 4, 1177, "E G# B D Fx");
    for (int64_t set = 0; set < SETS; set += 2)
        refuse_set(run, set);
    numbers_above(run, SETS, refuse_set);
    for (int64_t root = ROOTS; root < 256; root++)
        refuse_root(run, root);
    numbers_above(run, 256, refuse_root);
}

const struct suite tones_suite = {"tones", every_pair, stated_tones};
