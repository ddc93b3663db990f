/* One run of a suite: it prints the oracle's requests, or reads the answers and compares. */
#ifndef RUN_H
#define RUN_H

#include "fail.h"
#include "functions.h"

enum mode { REQUESTING, CHECKING };

struct run {
    const char *suite;
    enum mode mode;
    uint64_t seed;  /* of the cases that are drawn */
    uint64_t count; /* how many are drawn */
    uint64_t answers;
    uint64_t refusals;
    uint64_t mismatches;
    char *line;
    size_t line_room;
};

/* The oracle's line for this call; NULL where the call was only to be requested. */
const char *oracle_answer(struct run *run, const struct call *call);

void expect_answer(struct run *run, const struct call *call, int64_t got, int64_t want);
void expect_refusal(struct run *run, const struct call *call, int64_t got, int64_t want);

/* Tells of a call that went wrong; the tenth ends the run. */
void mismatch(struct run *run, const struct call *call, const char *format, ...);

/* The verdict: 0 when every case agreed and nothing was left over. */
int run_end(struct run *run, int oracle_asked);

#endif
