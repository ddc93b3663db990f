/* get_note: the whole domain by the oracle; around it refusals, the note's before the move's. */
#include "length.h"
#include "notes.h"
#include "oracle_lines.h"
#include "suite.h"
#include "written.h"

enum { MOST_SEMITONES = 24, MOST_DEGREE = 14 };

static const uint32_t semitones_above[] = {25,  26,  27,  28,  29,  30,        255,
                                           256, 257, 258, 259, 260, UINT32_MAX};

static const uint32_t degrees_outside[] = {0,   15,  16,  17,  18,  19,  20,
                                           255, 256, 257, 258, 259, 260, UINT32_MAX};

static void one_move(struct run *run, struct note from, uint32_t semitones, uint32_t degree)
{
    const struct call *call = CALL(get_note, from.letter, from.count, semitones, degree);
    const char *answer = oracle_answer(run, call);
    if (answer != NULL)
        expect_number(run, call, note_in(answer));
}

static void every_move(struct run *run)
{
    for (unsigned at = 0; at < NOTES; at++)
        for (uint32_t semitones = 0; semitones <= MOST_SEMITONES; semitones++)
            for (uint32_t degree = 1; degree <= MOST_DEGREE; degree++)
                one_move(run, note_at(at), semitones, degree);
}

/* The table's order: the note is looked at before the move. */
static void tried_move(struct run *run, struct note from, uint32_t semitones, uint32_t degree)
{
    bool move_bad = semitones > MOST_SEMITONES || degree == 0 || degree > MOST_DEGREE;
    if (is_note(from) && !move_bad)
        return;
    expect_refused(run, CALL(get_note, from.letter, from.count, semitones, degree),
                   is_note(from) ? HEMOTUSAP_BAD_MOVE : HEMOTUSAP_BAD_NOTE);
}

static void tried_degrees(struct run *run, struct note from, uint32_t semitones)
{
    for (uint32_t degree = 1; degree <= MOST_DEGREE; degree++)
        tried_move(run, from, semitones, degree);
    for (unsigned at = 0; at < LENGTH(degrees_outside); at++)
        tried_move(run, from, semitones, degrees_outside[at]);
}

static void moves_outside(struct run *run)
{
    for (unsigned note = 0; note < tried_notes(); note++) {
        struct note from = tried_note_at(note);
        for (uint32_t semitones = 0; semitones <= MOST_SEMITONES; semitones++)
            tried_degrees(run, from, semitones);
        for (unsigned at = 0; at < LENGTH(semitones_above); at++)
            tried_degrees(run, from, semitones_above[at]);
    }
}

const struct suite get_note_suite = {"get_note", every_move, moves_outside};
