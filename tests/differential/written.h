/* Calls with lent ranges: tried in every place, and those that write in the rooms that matter. */
#ifndef WRITTEN_H
#define WRITTEN_H

#include "run.h"

/* This room: too small a one is refusal 7. */
void expect_written_in(struct run *run, const struct call *call, const uint8_t *want, size_t length,
                       size_t room);

/* Rooms 0 to one more than the answer's length. */
void expect_written(struct run *run, const struct call *call, const uint8_t *want, size_t length);

/* This room: refused. */
void expect_unwritten_in(struct run *run, const struct call *call, int64_t refusal, size_t room);

/* Rooms 0 to `most`: refused in each. */
void expect_unwritten(struct run *run, const struct call *call, int64_t refusal, size_t most);

/* Calls that write words. */
void expect_words(struct run *run, const struct call *call, int64_t want, const uint64_t *words);

/* Calls that have no output. */
void expect_number(struct run *run, const struct call *call, int64_t want);
void expect_refused(struct run *run, const struct call *call, int64_t refusal);

#endif
