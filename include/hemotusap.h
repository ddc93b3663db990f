/* Hemotusap: chords from plain numbers, for C and C++ (hemotusap.hpp wraps it in types for C++17).
 *
 * An answer at or above 0 is a success. Below 0 it is minus the number of a refusal, which has a
 * name below; of a refusal that tells a place, it is minus (256 * number + place), whatever the
 * place. Where several apply, the first in that order is given. A refused call alters no byte; a
 * successful one alters only the bytes that it counts. A range of length 0 may have any pointer,
 * NULL too. An output overlaps no other range.
 *
 * Sets: bit k is pitch class k, counted in semitones from the root; 0..4095.
 * Accidentals: the count of sharps, -6..6; flats are negative, 0 is none.
 *
 * No call allocates, keeps state or calls back: any thread may make any call at any time. Of the
 * stack, as measured on Linux and Windows, harmony takes at most 1.5 KiB, the six calls that list
 * candidates or voice a chord at most 1.1 KiB, and any other call at most 0.5 KiB.
 */
#ifndef HEMOTUSAP_H
#define HEMOTUSAP_H

#include <stddef.h>
#include <stdint.h>

/* A call is refused exactly when one of these holds, in the order in which it is looked at. */
enum hemotusap_refusal {
    HEMOTUSAP_NOT_A_SET = 1,          /* a set above 4095 or, but for quality, without class 0 */
    HEMOTUSAP_BAD_CLASS = 2,          /* a root or bass class above 11, NO_BASS excepted */
    HEMOTUSAP_BAD_RANGE = 16,         /* a lowest key above the highest, or a highest above 127 */
    HEMOTUSAP_TOO_MANY_PAIRS = 3,     /* more than 16 pairs of note class and interval are used */
    HEMOTUSAP_BAD_PAIR_CLASS = 41,    /* a note class above 11 is used; its pair's place is told */
    HEMOTUSAP_BAD_PAIR_INTERVAL = 42, /* an interval above 22 is used; its pair's place is told */
    HEMOTUSAP_BAD_NOTE = 5,           /* a letter above 6, or an accidental outside -6..6 */
    HEMOTUSAP_BAD_MOVE = 6,           /* semitones above 24, or a degree that is 0 or above 14 */
    HEMOTUSAP_NOT_A_KEY = 11,         /* a code above 127, where only MIDI's keys are taken; its
                                         place is told */
    HEMOTUSAP_NO_ROOM = 7             /* the output is shorter than the whole answer */
};

/* The number of a refusal, and the place that it tells, counted from 0. Places of pairs are below
 * 256, since at most 16 are used, so quotient and remainder by 256 tell the two. Of an answer at or
 * above 0, which is none, the number is 0; where no place is told, the place is -1. What the strict
 * calls answer is for the two functions behind these. */
static inline int64_t hemotusap_refusal_number(int64_t answer)
{
    if (answer >= 0)
        return 0;
    return answer > -256 ? -answer : answer / -256;
}

static inline int64_t hemotusap_refusal_place(int64_t answer)
{
    return answer > -256 ? -1 : -(answer % 256);
}

/* The same for what hemotusap_candidates_strict and hemotusap_candidates_strict_sharp answer. A
 * list of codes may be of any length, and so may the place be above 255; but NOT_A_KEY is their one
 * refusal that tells a place, so that what is left without 256 * NOT_A_KEY is the place. */
static inline int64_t hemotusap_strict_refusal_number(int64_t answer)
{
    if (answer >= 0)
        return 0;
    if (answer > -256 * HEMOTUSAP_NOT_A_KEY)
        return -answer;
    return HEMOTUSAP_NOT_A_KEY;
}

static inline int64_t hemotusap_strict_refusal_place(int64_t answer)
{
    return answer > -256 * HEMOTUSAP_NOT_A_KEY ? -1 : -256 * HEMOTUSAP_NOT_A_KEY - answer;
}

/* What hemotusap_quality answers. */
enum hemotusap_chord_quality {
    HEMOTUSAP_QUALITY_MAJ = 0,
    HEMOTUSAP_QUALITY_MAJ6 = 1,
    HEMOTUSAP_QUALITY_MAJ7 = 2,
    HEMOTUSAP_QUALITY_DOMINANT7 = 3,
    HEMOTUSAP_QUALITY_MI = 4, /* minor */
    HEMOTUSAP_QUALITY_MI6 = 5,
    HEMOTUSAP_QUALITY_MI7 = 6,
    HEMOTUSAP_QUALITY_MI_MAJ7 = 7, /* minor third, major seventh */
    HEMOTUSAP_QUALITY_AUGMENTED = 8,
    HEMOTUSAP_QUALITY_DIMINISHED = 9,
    HEMOTUSAP_QUALITY_DIMINISHED7 = 10,
    HEMOTUSAP_QUALITY_POWER = 11, /* a fifth, and no third */
    HEMOTUSAP_QUALITY_BASS = 12   /* one class alone */
};

/* The intervals of a voicing's tones, each with its short name. */
enum hemotusap_interval {
    HEMOTUSAP_INTERVAL_UNISON = 0,              /* 1 */
    HEMOTUSAP_INTERVAL_MINOR_SECOND = 1,        /* b2 */
    HEMOTUSAP_INTERVAL_MAJOR_SECOND = 2,        /* 2 */
    HEMOTUSAP_INTERVAL_MINOR_THIRD = 3,         /* b3 */
    HEMOTUSAP_INTERVAL_MAJOR_THIRD = 4,         /* 3 */
    HEMOTUSAP_INTERVAL_PERFECT_FOURTH = 5,      /* 4 */
    HEMOTUSAP_INTERVAL_AUGMENTED_FOURTH = 6,    /* #4 */
    HEMOTUSAP_INTERVAL_DIMINISHED_FIFTH = 7,    /* b5 */
    HEMOTUSAP_INTERVAL_PERFECT_FIFTH = 8,       /* 5 */
    HEMOTUSAP_INTERVAL_AUGMENTED_FIFTH = 9,     /* #5 */
    HEMOTUSAP_INTERVAL_MINOR_SIXTH = 10,        /* b6 */
    HEMOTUSAP_INTERVAL_MAJOR_SIXTH = 11,        /* 6 */
    HEMOTUSAP_INTERVAL_DIMINISHED_SEVENTH = 12, /* bb7 */
    HEMOTUSAP_INTERVAL_MINOR_SEVENTH = 13,      /* 7 */
    HEMOTUSAP_INTERVAL_MAJOR_SEVENTH = 14,      /* Ma7 */
    HEMOTUSAP_INTERVAL_OCTAVE = 15,             /* 8 */
    HEMOTUSAP_INTERVAL_FLAT_NINTH = 16,         /* b9 */
    HEMOTUSAP_INTERVAL_NINTH = 17,              /* 9 */
    HEMOTUSAP_INTERVAL_SHARP_NINTH = 18,        /* #9 */
    HEMOTUSAP_INTERVAL_ELEVENTH = 19,           /* 11 */
    HEMOTUSAP_INTERVAL_SHARP_ELEVENTH = 20,     /* #11 */
    HEMOTUSAP_INTERVAL_FLAT_THIRTEENTH = 21,    /* b13 */
    HEMOTUSAP_INTERVAL_THIRTEENTH = 22          /* 13 */
};

/* The letters of notes. */
enum hemotusap_letter {
    HEMOTUSAP_LETTER_C = 0,
    HEMOTUSAP_LETTER_D = 1,
    HEMOTUSAP_LETTER_E = 2,
    HEMOTUSAP_LETTER_F = 3,
    HEMOTUSAP_LETTER_G = 4,
    HEMOTUSAP_LETTER_A = 5,
    HEMOTUSAP_LETTER_B = 6
};

/* The bytes in which every answer of a call fits: no such room is refused as NO_ROOM. */
enum hemotusap_room {
    HEMOTUSAP_SUFFIX_ROOM = 64,
    HEMOTUSAP_LISTING_ROOM = 32,
    HEMOTUSAP_TONES_ROOM = 34,
    HEMOTUSAP_CANDIDATES_ROOM = 840,
    HEMOTUSAP_NOTE_TEXT_ROOM = 7,
    HEMOTUSAP_VOICING_ROOM = 35,
    HEMOTUSAP_HARMONY_ROOM = 1147
};

/* What a call takes for no bass, and a voicing for no lead; every lead above 255 is none. */
enum hemotusap_none {
    HEMOTUSAP_NO_BASS = 255,
    HEMOTUSAP_NO_LEAD = 256
};

#ifdef __cplusplus
extern "C" {
#endif

/* The quality of a set, as enum hemotusap_chord_quality numbers them. The set need not hold class
 * 0. Refuses: NOT_A_SET. */
int64_t hemotusap_quality(uint32_t set);

/* Writes what stands behind the root's name for a set that holds class 0: quality with modifier,
 * "sus", then alterations, adds and omits in parentheses, as in "7sus(b9)". Answers the bytes
 * written, at most 64; no NUL follows them. Refuses: NOT_A_SET, NO_ROOM. */
int64_t hemotusap_suffix(uint32_t set, uint8_t *out, size_t room);

/* Writes the sets that have this suffix: every set that holds class 0 and whose suffix is exactly
 * the text, in rising order, each as two bytes, the higher one first. Any bytes of any length are
 * a text; one that no set has is answered with 0. The empty text is the suffix of the plain major
 * chord. Answers the bytes written, at most 32. Refuses: NO_ROOM. */
int64_t hemotusap_listing(const uint8_t *suffix, size_t length, uint8_t *out, size_t room);

/* Writes the notes of a set that holds class 0, above the root of class `root`, 0..11 (C Db D Eb E
 * F Gb G Ab A Bb B). The set is read as the intervals of a chord, ninths, elevenths and thirteenths
 * among them, and each is spelled by its degree as get_note does, the narrowest first. The degree
 * is that of its name: b5 is a fifth, #11 an eleventh. A note is as note_text writes it, and one
 * space stands between two, as in "C Eb Gb". The plain triad, sixth or seventh chord of each
 * quality stands on the letters 1 3 5, and 6 or 7, counted from the root's. Answers the bytes
 * written, 1..34; no NUL follows them. Refuses: NOT_A_SET, BAD_CLASS, NO_ROOM. */
int64_t hemotusap_tones(uint32_t root, uint32_t set, uint8_t *out, size_t room);

/* Writes the candidates of a list of MIDI codes; any byte is one, and its class is the code mod
 * 12. For each code whose class has not occurred before, in the list's order: the name of its
 * class (C Db D Eb E F Gb G Ab A Bb B), the suffix of the list seen from it, then '/' and the
 * name of the first code unless it is the first, then LF. Answers the bytes written, at most 840
 * and 0 for an empty list; no NUL follows them. Refuses: NO_ROOM.
 * A moved part keeps its symbols: with every code raised by one amount there are as many lines, in
 * the same order and with the same suffixes, and each name is that of the class so raised. Raised
 * by octaves the bytes are the same, and so are those of two lists whose classes occur first in
 * the same order. This goes for all four calls that write candidates, where they do not refuse. */
int64_t hemotusap_candidates(const uint8_t *codes, size_t count, uint8_t *out, size_t room);

/* The same for a list of MIDI's keys, 0..127, alone: one with a code above 127, such as a status
 * byte, is refused whole, and any other is answered exactly as by hemotusap_candidates, in every
 * room. Refuses: NOT_A_KEY, NO_ROOM. Of codes above 127 the first counts, and its place is told,
 * from 0 and below `count`: at place 300 the answer is -3116, which is -(256 * 11 + 300).
 * hemotusap_strict_refusal_number and hemotusap_strict_refusal_place take the two apart. */
int64_t hemotusap_candidates_strict(const uint8_t *codes, size_t count, uint8_t *out, size_t room);

/* Both again with the names C C# D D# E F F# G G# A A# B, for parts in sharp keys. The answer, the
 * refusals and every other byte are those of the call without `_sharp`. */
int64_t hemotusap_candidates_sharp(const uint8_t *codes, size_t count, uint8_t *out, size_t room);
int64_t hemotusap_candidates_strict_sharp(const uint8_t *codes, size_t count, uint8_t *out,
                                          size_t room);

/* The line of a candidate, by its number from 0, in the names that a key calls for. The key is a
 * count of sharps, or minus a count of flats: with `fifths` 1..7 the line is a part of the listing
 * `sharp`, with -7..0 of `flat`, which are to be what hemotusap_candidates_sharp and
 * hemotusap_candidates wrote for one list. Writes where the line begins in that listing to `start`,
 * and how many bytes it has, its LF not counted, to `length`. Answers 0 for a part of `flat`, 1 for
 * one of `sharp`. Any bytes are a listing: a line ends at its LF, and bytes behind the last LF are
 * none. Where the listing has no line of this number, or `fifths` is outside -7..7, the part is the
 * empty one at the end of `flat`: the answer is 0, `start` is `flat_length` and `length` 0. Neither
 * `start` nor `length` may be NULL, and they overlap no range and not each other. Never refuses. */
int64_t hemotusap_candidate_line(const uint8_t *flat, size_t flat_length,
                                 const uint8_t *sharp, size_t sharp_length,
                                 uint32_t number, int32_t fifths,
                                 uint64_t *start, uint64_t *length);

/* The number of candidates of a list, which is that of its classes: 0..12. Never refuses. */
int64_t hemotusap_candidate_count(const uint8_t *codes, size_t count);

/* A candidate of a list by its number from 0, in the order in which hemotusap_candidates writes
 * them: the class of its root, 0..11; the class of its bass, which is the first code's, or 15 for
 * none, which the first candidate has; and the list's classes as a set seen from that root. Answers
 * 65536 * bass + 4096 * root + set, which the three functions below take apart, or 0 where there
 * is no such candidate. Never refuses. */
int64_t hemotusap_candidate(const uint8_t *codes, size_t count, uint32_t number);

/* The parts of what hemotusap_candidate answers, as hemotusap_harmony takes them: no bass is
 * NO_BASS. Of an answer of 0 the set is 0, and of no other. */
static inline uint32_t hemotusap_candidate_root(int64_t candidate)
{
    return candidate >> 12 & 15;
}

static inline uint32_t hemotusap_candidate_bass(int64_t candidate)
{
    uint32_t bass = candidate >> 16 & 15;
    if (bass == 15)
        return HEMOTUSAP_NO_BASS;
    return bass;
}

static inline uint32_t hemotusap_candidate_set(int64_t candidate)
{
    return candidate & 4095;
}

/* Writes a chord as one harmony element of MusicXML 4.0: a set that holds class 0, on the root of
 * class `root` and over the bass of class `bass`, each 0..11 (C Db D Eb E F Gb G Ab A Bb B), or
 * with no bass. Its parts are root, kind, bass and degrees, with no white space, as in
 *
 *     <harmony><root><root-step>C</root-step></root><kind>major</kind></harmony>
 *
 * The alter of a root or bass without an accidental is left out. A bass that is given is written,
 * also where it is the root or none of the set's classes. The kind is that of the quality which the
 * suffix shows: major, major-sixth, major-seventh, dominant, minor, minor-sixth, minor-seventh,
 * major-minor, augmented, diminished or diminished-seventh. The set is read as intervals, as by
 * hemotusap_tones, and each whose class is no tone of the kind becomes a degree of type "add", the
 * narrowest first. It is numbered by its name (b5 is 5, #11 is 11), and its alter is counted from
 * that degree of a dominant chord, in which 7 is the minor seventh. Behind these each tone of the
 * kind that the set has not becomes a degree of type "subtract" with alter 0, the lowest first. So
 * nothing is lost: the kind's tones, less the subtracted, with the added, are the set. Answers the
 * bytes written, 74..1147; no NUL follows them. Refuses: NOT_A_SET, BAD_CLASS, NO_ROOM. */
int64_t hemotusap_harmony(uint32_t root, uint32_t bass, uint32_t set, uint8_t *out, size_t room);

/* Writes a note's name: its letter, then 'b' once for each flat, or for sharps '#' first if their
 * count is odd and then 'x' once for each pair of them: G with one to six is G#, Gx, G#x, Gxx, G#xx
 * and Gxxx. Answers the bytes written, 1..7; no NUL follows them. Refuses: BAD_NOTE, NO_ROOM. */
int64_t hemotusap_note_text(uint32_t letter, int32_t accidental, uint8_t *out, size_t room);

/* The note that sounds `semitones` above the given one, octaves aside, spelled on the letter
 * `degree` - 1 steps up (1 is the same letter, and so is 8). Its accidental is the wanted pitch
 * class less the letter's own, brought into -6..6 by an octave; a 6 or -6 stays as it comes out.
 * Answers 16 * letter + accidental + 6. Refuses: BAD_NOTE, BAD_MOVE. */
int64_t hemotusap_get_note(uint32_t letter, int32_t accidental, uint32_t semitones,
                           uint32_t degree);

/* The note (letter, accidental), moved as `from` moves to `to`. Answers 16 * letter + accidental
 * + 6. Refuses: BAD_NOTE, whichever of the three is bad. */
int64_t hemotusap_transpose(uint32_t from_letter, int32_t from_accidental,
                            uint32_t letter, int32_t accidental,
                            uint32_t to_letter, int32_t to_accidental);

/* Writes a voicing of a chord: the keys to strike, a byte each. Its tones are pairs of a note
 * class, 0..11, and an interval, 0..22 as enum hemotusap_interval numbers them, and as many pairs
 * are used as the shorter range has; the rest is not looked at. First bass + 36 and root + 48, or
 * with no bass root + 36; then the guides from the lowest up, the tensions from the highest down,
 * and the lead. A tone's keys are 48 + class and up by octaves, those from `lowest` to `highest`;
 * one that has none there is left out. The lead is the key nearest to `lead` that a tone has, or to
 * `highest` with no lead; 0 where no tone may lead. `lead` is a wish, and may be outside the range.
 * Answers the bytes written, 2..35; no NUL follows them. Refuses: BAD_CLASS, BAD_RANGE,
 * TOO_MANY_PAIRS, BAD_PAIR_CLASS or BAD_PAIR_INTERVAL, NO_ROOM. Of bad pairs the first counts, and
 * its place is told, 0..15; if it is bad in both, the class counts. */
int64_t hemotusap_voicing_within(uint32_t root, uint32_t bass, uint32_t lowest, uint32_t highest,
                                 const uint8_t *classes, size_t class_count,
                                 const uint8_t *intervals, size_t interval_count,
                                 uint32_t lead, uint8_t *out, size_t room);

/* The same from 51 to 79, where each tone has two or three keys: BAD_RANGE is never given. */
int64_t hemotusap_voicing(uint32_t root, uint32_t bass,
                          const uint8_t *classes, size_t class_count,
                          const uint8_t *intervals, size_t interval_count,
                          uint32_t lead, uint8_t *out, size_t room);

#ifdef __cplusplus
}
#endif

#endif
