#include "notes.h"

#include "length.h"

static const uint32_t letters[] = {
    0,  1,  2,  3,  4,  5,  6,                               /* the letters */
    7,  8,  9,  10, 11, 12, 13, 14, 15, 16, 17, 18, 19, 20,  /* just above */
    255, 256, 257, 258, 259, 260,                            /* what a byte would cut */
    UINT32_C(1) << 31, UINT32_MAX,
};

static const int32_t counts[] = {
    -6, -5, -4, -3, -2, -1, 0, 1, 2, 3, 4, 5, 6,      /* the counts */
    -7, 7, -8, 8, -12, 12, -13, 13,                   /* where an octave would wrap */
    -100, 100, -128, 127, -129, 128, -256, 256,       /* what a byte would cut */
    INT32_MIN, INT32_MAX,
};

struct note note_at(unsigned at)
{
    return (struct note){at / 13, (int32_t)(at % 13) - 6};
}

struct note tried_note_at(unsigned at)
{
    return (struct note){letters[at / LENGTH(counts)], counts[at % LENGTH(counts)]};
}

unsigned tried_notes(void)
{
    return LENGTH(letters) * LENGTH(counts);
}

bool is_note(struct note note)
{
    return note.letter <= 6 && note.count >= -6 && note.count <= 6;
}

int64_t note_number(struct note note)
{
    return 16 * (int64_t)note.letter + note.count + 6;
}
