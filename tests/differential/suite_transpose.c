/* transpose: all 91^3 moves by the oracle; bad notes in each place, alone and together. */
#include "length.h"
#include "notes.h"
#include "oracle_lines.h"
#include "suite.h"
#include "written.h"

/* Few enough to stand in all three places at once: good, bad in letter, in count, in both. */
static const struct note mixed[] = {
    {0, 0}, {3, 6},   {6, -6},
    {7, 0}, {256, 1}, {UINT32_MAX, -6},
    {0, 7}, {6, -7},  {2, 256},         {4, INT32_MIN},
    {7, 7}, {UINT32_MAX, INT32_MAX},
};

#define TRANSPOSE(from, note, to)                                                   \
    CALL(transpose, (from).letter, (from).count, (note).letter, (note).count,     \
         (to).letter, (to).count)

static void one_move(struct run *run, struct note from, struct note note, struct note to)
{
    const struct call *call = TRANSPOSE(from, note, to);
    const char *answer = oracle_answer(run, call);
    if (answer != NULL)
        expect_number(run, call, note_in(answer));
}

static void every_move(struct run *run)
{
    for (unsigned from = 0; from < NOTES; from++)
        for (unsigned note = 0; note < NOTES; note++)
            for (unsigned to = 0; to < NOTES; to++)
                one_move(run, note_at(from), note_at(note), note_at(to));
}

static void tried_move(struct run *run, struct note from, struct note note, struct note to)
{
    if (!is_note(from) || !is_note(note) || !is_note(to))
        expect_refused(run, TRANSPOSE(from, note, to), HEMOTUSAP_BAD_NOTE);
}

static void moves_outside(struct run *run)
{
    for (unsigned a = 0; a < LENGTH(mixed); a++)
        for (unsigned b = 0; b < LENGTH(mixed); b++) {
            for (unsigned c = 0; c < LENGTH(mixed); c++)
                tried_move(run, mixed[a], mixed[b], mixed[c]);
            for (unsigned at = 0; at < tried_notes(); at++) {
                tried_move(run, tried_note_at(at), mixed[a], mixed[b]);
                tried_move(run, mixed[a], tried_note_at(at), mixed[b]);
                tried_move(run, mixed[a], mixed[b], tried_note_at(at));
            }
        }
}

const struct suite transpose_suite = {"transpose", every_move, moves_outside};
