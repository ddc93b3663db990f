/* Notes within and around the domain of paper 01: letters 0 to 6, counts -6 to 6. */
#ifndef NOTES_H
#define NOTES_H

#include <stdbool.h>
#include <stdint.h>

struct note {
    uint32_t letter;
    int32_t count;
};

enum { NOTES = 7 * 13 };

/* The notes, numbered from 0. */
struct note note_at(unsigned at);

/* Notes together with what lies around them, numbered from 0 to tried_notes() - 1. */
struct note tried_note_at(unsigned at);
unsigned tried_notes(void);

bool is_note(struct note note);

/* How the library hands a note back. */
int64_t note_number(struct note note);

#endif
