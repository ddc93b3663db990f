/* note_text: every note in every room, its letter and count by the oracle; bad notes are refused
   before the room is looked at. */
#include <string.h>

#include "length.h"
#include "notes.h"
#include "oracle_lines.h"
#include "suite.h"
#include "written.h"

static void every_note(struct run *run)
{
    for (unsigned at = 0; at < NOTES; at++) {
        struct note note = note_at(at);
        const struct call *call = CALL(note_text, note.letter, note.count);
        const char *answer = oracle_answer(run, call);
        if (answer == NULL)
            continue;
        const struct names want = names_in(answer);
        expect_written(run, call, (const uint8_t *)want.text, want.length);
    }
}

static void stated_name(struct run *run, struct note note, const char *name)
{
    expect_written(run, CALL(note_text, note.letter, note.count), (const uint8_t *)name,
                   strlen(name));
}

/* Request Q-10's own, and flats as before. */
static void stated_names(struct run *run)
{
    static const char *const sharps[] = {"G", "G#", "Gx", "G#x", "Gxx", "G#xx", "Gxxx"};
    static const char *const flats[] = {"G", "Gb", "Gbb", "Gbbb", "Gbbbb", "Gbbbbb", "Gbbbbbb"};
    for (int32_t count = 0; count < (int32_t)LENGTH(sharps); count++) {
        stated_name(run, (struct note){HEMOTUSAP_LETTER_G, count}, sharps[count]);
        stated_name(run, (struct note){HEMOTUSAP_LETTER_G, -count}, flats[count]);
    }
}

static void names_and_refusals(struct run *run)
{
    stated_names(run);
    for (unsigned at = 0; at < tried_notes(); at++) {
        struct note note = tried_note_at(at);
        if (!is_note(note))
            expect_unwritten(run, CALL(note_text, note.letter, note.count), HEMOTUSAP_BAD_NOTE,
                             HEMOTUSAP_NOTE_TEXT_ROOM + 1);
    }
}

const struct suite note_text_suite = {"note_text", every_note, names_and_refusals};
