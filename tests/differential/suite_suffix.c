/* suffix: all rooted sets by the oracle, in every room; other sets are refused before the room is
   looked at. */
#include <string.h>

#include "length.h"
#include "numbers_above.h"
#include "suite.h"
#include "written.h"

enum { SETS = 4096, LONGEST = 64 };

/* None, too little for most answers, enough for each: refusal 1 comes before 7 in all. */
static const size_t rooms[] = {0, 1, LONGEST};

static void every_rooted_set(struct run *run)
{
    for (uint32_t set = 1; set < SETS; set += 2) {
        const struct call *call = CALL(suffix, set);
        const char *answer = oracle_answer(run, call);
        if (answer != NULL)
            expect_written(run, call, (const uint8_t *)answer, strlen(answer));
    }
}

static void refused(struct run *run, int64_t set)
{
    for (unsigned at = 0; at < LENGTH(rooms); at++)
        expect_unwritten_in(run, CALL(suffix, set), HEMOTUSAP_NOT_A_SET, rooms[at]);
}

static void sets_refused(struct run *run)
{
    for (int64_t set = 0; set < SETS; set += 2)
        refused(run, set);
    numbers_above(run, SETS, refused);
}

const struct suite suffix_suite = {"suffix", every_rooted_set, sets_refused};
