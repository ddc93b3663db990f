/* quality: all sets by the oracle; the numbers above are refused. */
#include "numbers_above.h"
#include "oracle_lines.h"
#include "suite.h"
#include "written.h"

enum { SETS = 4096 };

static void every_set(struct run *run)
{
    for (uint32_t set = 0; set < SETS; set++) {
        const struct call *call = CALL(quality, set);
        const char *answer = oracle_answer(run, call);
        if (answer != NULL)
            expect_number(run, call, number_in(answer));
    }
}

static void refused(struct run *run, int64_t set)
{
    expect_refused(run, CALL(quality, set), HEMOTUSAP_NOT_A_SET);
}

static void sets_above(struct run *run)
{
    for (int64_t set = SETS; set <= 70000; set++)
        refused(run, set);
    numbers_above(run, SETS, refused);
}

const struct suite quality_suite = {"quality", every_set, sets_above};
