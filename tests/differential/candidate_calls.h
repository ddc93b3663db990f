/* Calls of candidate on a list. */
#ifndef CANDIDATE_CALLS_H
#define CANDIDATE_CALLS_H

#include "run.h"

/* What the library answers for a candidate of these parts, which the header takes apart. */
int64_t packed_candidate(int64_t root, int64_t bass, int64_t set);

/* Held to this answer.. */
void expect_candidate(struct run *run, const struct range *list, int64_t number, int64_t want);

/* ..or asked for it. */
int64_t candidate_of(struct run *run, const struct range *list, int64_t number);

#endif
