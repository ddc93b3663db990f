/* Kinds of chords by MusicXML 4.0, and the chord from which it counts an added degree. */
#ifndef KINDS_H
#define KINDS_H

#include <stdint.h>

struct kind {
    const char *name;
    int third, fifth, sixth, seventh; /* in semitones; 0: it has none */
};

enum { NO_TONE = -1 };

/* NULL: there is none of this name. */
const struct kind *kind_named(const char *name);

/* The semitones of a degree, as the kind has it; or NO_TONE. */
int tone_of(const struct kind *kind, int degree);

/* Its classes, as bits. */
uint32_t classes_of(const struct kind *kind);

/* "Major and perfect intervals except for a minor seventh"; NO_TONE below 1 and above 13. */
int tone_of_dominant(int degree);

#endif
