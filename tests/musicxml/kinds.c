#include "kinds.h"

#include <stddef.h>
#include <string.h>

#include "length.h"

/* From the comments of MusicXML's kind-value: its triads, sevenths and sixths. */
static const struct kind kinds[] = {
    {"major", 4, 7, 0, 0},              /* major third, perfect fifth */
    {"minor", 3, 7, 0, 0},              /* minor third, perfect fifth */
    {"augmented", 4, 8, 0, 0},          /* major third, augmented fifth */
    {"diminished", 3, 6, 0, 0},         /* minor third, diminished fifth */
    {"dominant", 4, 7, 0, 10},          /* major triad, minor seventh */
    {"major-seventh", 4, 7, 0, 11},     /* major triad, major seventh */
    {"minor-seventh", 3, 7, 0, 10},     /* minor triad, minor seventh */
    {"diminished-seventh", 3, 6, 0, 9}, /* diminished triad, diminished seventh */
    {"augmented-seventh", 4, 8, 0, 10}, /* augmented triad, minor seventh */
    {"half-diminished", 3, 6, 0, 10},   /* diminished triad, minor seventh */
    {"major-minor", 3, 7, 0, 11},       /* minor triad, major seventh */
    {"major-sixth", 4, 7, 9, 0},        /* major triad, added sixth */
    {"minor-sixth", 3, 7, 9, 0},        /* minor triad, added sixth */
};

const struct kind *kind_named(const char *name)
{
    for (unsigned at = 0; at < LENGTH(kinds); at++)
        if (strcmp(kinds[at].name, name) == 0)
            return &kinds[at];
    return NULL;
}

int tone_of(const struct kind *kind, int degree)
{
    const int tones[] = {kind->third, kind->fifth, kind->sixth, kind->seventh};
    const int degrees[] = {3, 5, 6, 7};
    if (degree == 1)
        return 0;
    for (unsigned at = 0; at < LENGTH(tones); at++)
        if (degrees[at] == degree && tones[at] != 0)
            return tones[at];
    return NO_TONE;
}

uint32_t classes_of(const struct kind *kind)
{
    uint32_t classes = 0;
    for (int degree = 1; degree <= 7; degree++)
        if (tone_of(kind, degree) != NO_TONE)
            classes |= UINT32_C(1) << tone_of(kind, degree);
    return classes;
}

int tone_of_dominant(int degree)
{
    static const int scale[] = {0, 2, 4, 5, 7, 9, 10};
    if (degree < 1 || degree > 13)
        return NO_TONE;
    return scale[(degree - 1) % 7] + 12 * ((degree - 1) / 7);
}
