/* Calls of voicing: a chord to be voiced, and what is to come of it. */
#ifndef VOICINGS_H
#define VOICINGS_H

#include "pools.h"
#include "ranges.h"
#include "run.h"

enum {
    NO_BASS = HEMOTUSAP_NO_BASS,
    NO_LEAD = HEMOTUSAP_NO_LEAD,
    MOST_KEYS = 64 /* more than a voicing has */
};

/* Keys that are stated. */
#define KEYS(...) \
    ((struct range){(const uint8_t[]){__VA_ARGS__}, sizeof(const uint8_t[]){__VA_ARGS__}})

struct chord {
    const struct function *function;
    int64_t numbers[5]; /* root, bass, lead; before the lead the lowest and highest key, if asked */
    size_t count;
    struct range ranges[2]; /* classes, intervals */
};

typedef struct chord chord_maker(int64_t root, int64_t bass, int64_t lead, const struct pool *pool);

/* For voicing; and for voicing_within, with every key that MIDI 1.0 has. */
chord_maker chord_of, chord_of_all_keys;

/* For voicing_within. */
struct chord chord_within(struct key_range keys, int64_t root, int64_t bass, int64_t lead,
                          const struct pool *pool);

/* Any number above 255 is no lead. */
int64_t drawn_lead(uint64_t *state);

/* A chord on any root, over any bass or none. */
struct chord drawn_chord(uint64_t *state, const struct pool *pool);

/* What the oracle answers, as expect_voicing has it. */
void expect_oracle_voicing(struct run *run, const struct chord *chord, uint64_t state);

/* These keys, in their exact room and in a drawn one; in every room up to one more for one chord
   in some. Where a range is longer than the other, also with its surplus made bad. */
void expect_voicing(struct run *run, const struct chord *chord, struct range keys, uint64_t state);

/* These keys, in every room up to one more. */
void expect_voicing_everywhere(struct run *run, const struct chord *chord, struct range keys);

/* Refused, in this room. */
void expect_no_voicing_in(struct run *run, const struct chord *chord, int64_t refusal, size_t room);

/* Refused, in no room, in too little and in enough. */
void expect_no_voicing(struct run *run, const struct chord *chord, int64_t refusal);

#endif
