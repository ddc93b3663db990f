/* A host in C: each call of the library, in memory of the host's own. It prints what main.cpp
   prints. */
#include <hemotusap.h>

#include <inttypes.h>
#include <stdio.h>

static const char *why(int64_t number)
{
    switch (number) {
    case HEMOTUSAP_NOT_A_SET:
        return "not a set";
    case HEMOTUSAP_BAD_RANGE:
        return "bad range";
    case HEMOTUSAP_BAD_PAIR_CLASS:
        return "bad class of a pair";
    case HEMOTUSAP_NOT_A_KEY:
        return "not a key";
    default:
        return "for another reason";
    }
}

/* Some refusals tell at which place. */
static void show_refusal(const char *what, int64_t number, int64_t place)
{
    printf("%s: refused, %s", what, why(number));
    if (place >= 0)
        printf(", at %" PRId64, place);
    printf("\n");
}

/* The text that an answer counts, or why there is none. */
static void show(const char *what, int64_t answer, const uint8_t *text)
{
    if (answer >= 0)
        printf("%s: %.*s\n", what, (int)answer, (const char *)text);
    else
        show_refusal(what, hemotusap_refusal_number(answer), hemotusap_refusal_place(answer));
}

static void symbols(void)
{
    static const uint8_t keys[] = {60, 64, 67};
    uint8_t lines[HEMOTUSAP_CANDIDATES_ROOM], name[HEMOTUSAP_SUFFIX_ROOM];
    int64_t written = hemotusap_candidates(keys, sizeof keys, lines, sizeof lines);
    printf("60 64 67 may be %" PRId64 " chords:\n", hemotusap_candidate_count(keys, sizeof keys));
    printf("%.*s", (int)written, (const char *)lines);
    show("suffix of 1169", hemotusap_suffix(1169, name, sizeof name), name);
    show("suffix of 4096", hemotusap_suffix(4096, name, sizeof name), name);
}

/* For keys off a cable: 144 is a status byte. The refusals of this call are read by functions of
   their own. */
static void strict_symbols(void)
{
    static const uint8_t keys[] = {60, 64}, spoiled[] = {60, 64, 144};
    uint8_t lines[HEMOTUSAP_CANDIDATES_ROOM];
    int64_t written = hemotusap_candidates_strict(keys, sizeof keys, lines, sizeof lines);
    int64_t refused = hemotusap_candidates_strict(spoiled, sizeof spoiled, lines, sizeof lines);
    printf("60 64:\n%.*s", (int)written, (const char *)lines);
    show_refusal("60 64 144", hemotusap_strict_refusal_number(refused),
                 hemotusap_strict_refusal_place(refused));
}

static void show_line(const uint8_t *flat, int64_t flat_length, const uint8_t *sharp,
                      int64_t sharp_length, uint32_t number, int32_t fifths)
{
    uint64_t start, length;
    int64_t is_sharp = hemotusap_candidate_line(flat, (size_t)flat_length, sharp,
                                                (size_t)sharp_length, number, fifths, &start,
                                                &length);
    printf(" %.*s", (int)length, (const char *)(is_sharp ? sharp : flat) + start);
}

/* By the key's count of sharps, or minus that of its flats. */
static void keys(void)
{
    static const uint8_t codes[] = {66, 69, 74};
    uint8_t flat[HEMOTUSAP_CANDIDATES_ROOM], sharp[HEMOTUSAP_CANDIDATES_ROOM];
    int64_t flats = hemotusap_candidates(codes, sizeof codes, flat, sizeof flat);
    int64_t sharps = hemotusap_candidates_sharp(codes, sizeof codes, sharp, sizeof sharp);
    printf("the last of 66 69 74, in D and in F:");
    show_line(flat, flats, sharp, sharps, 2, 2);
    show_line(flat, flats, sharp, sharps, 2, -1);
    printf("\n");
}

/* Each candidate by its number, up to the one that is not there. */
static void elements(void)
{
    static const uint8_t keys[] = {60, 64, 67};
    uint8_t element[HEMOTUSAP_HARMONY_ROOM];
    int64_t found;
    for (uint32_t at = 0; (found = hemotusap_candidate(keys, sizeof keys, at)) != 0; at++)
        show("in MusicXML",
             hemotusap_harmony(hemotusap_candidate_root(found), hemotusap_candidate_bass(found),
                               hemotusap_candidate_set(found), element, sizeof element),
             element);
}

/* A set has two bytes, the higher one first. */
static void sets(void)
{
    static const uint8_t name[] = {'7', '(', 'b', '1', '3', ')'};
    uint8_t listed[HEMOTUSAP_LISTING_ROOM];
    int64_t written = hemotusap_listing(name, sizeof name, listed, sizeof listed);
    printf("sets of 7(b13):");
    for (int64_t at = 0; at < written; at += 2)
        printf(" %d", 256 * listed[at] + listed[at + 1]);
    printf("\n");
}

static void qualities(void)
{
    printf("145 is %s\n", hemotusap_quality(145) == HEMOTUSAP_QUALITY_MAJ ? "major" : "another");
}

/* A note comes as 16 * letter + accidental + 6. */
static void show_note(const char *what, int64_t note)
{
    uint8_t text[HEMOTUSAP_NOTE_TEXT_ROOM];
    show(what, hemotusap_note_text(note / 16, note % 16 - 6, text, sizeof text), text);
}

static void notes(void)
{
    enum { C = HEMOTUSAP_LETTER_C, E = HEMOTUSAP_LETTER_E, G = HEMOTUSAP_LETTER_G };
    uint8_t text[HEMOTUSAP_TONES_ROOM];
    show("tones of 73 on C", hemotusap_tones(0, 73, text, sizeof text), text);
    show("tones of 1177 on E", hemotusap_tones(4, 1177, text, sizeof text), text);
    show_note("a major third above Eb", hemotusap_get_note(E, -1, 4, 3));
    show_note("Eb moved as C to G", hemotusap_transpose(C, 0, E, -1, G, 0));
}

/* The keys that an answer counts, or why there are none. */
static void show_keys(const char *what, int64_t answer, const uint8_t *keys)
{
    if (answer < 0) {
        show(what, answer, keys);
        return;
    }
    printf("%s:", what);
    for (int64_t at = 0; at < answer; at++)
        printf(" %d", keys[at]);
    printf("\n");
}

/* A major seventh chord on C, on the keys that a host has which names none, and within others. */
static void voicings(void)
{
    static const uint8_t classes[] = {0, 4, 7, 11};
    static const uint8_t intervals[] = {
        HEMOTUSAP_INTERVAL_UNISON, HEMOTUSAP_INTERVAL_MAJOR_THIRD,
        HEMOTUSAP_INTERVAL_PERFECT_FIFTH, HEMOTUSAP_INTERVAL_MAJOR_SEVENTH};
    static const struct {
        const char *what;
        uint32_t lowest, highest;
    } ranges[] = {{"CMa7 on a vibraphone", 51, 89},
                  {"CMa7 in the left hand", 51, 67},
                  {"CMa7 from 68 to 67", 68, 67}};
    uint8_t keys[HEMOTUSAP_VOICING_ROOM];
    show_keys("CMa7",
              hemotusap_voicing(0, HEMOTUSAP_NO_BASS, classes, sizeof classes, intervals,
                                sizeof intervals, HEMOTUSAP_NO_LEAD, keys, sizeof keys),
              keys);
    show_keys("CMa7/E, lead 71",
              hemotusap_voicing(0, 4, classes, sizeof classes, intervals, sizeof intervals, 71,
                                keys, sizeof keys),
              keys);
    for (size_t at = 0; at < sizeof ranges / sizeof ranges[0]; at++)
        show_keys(ranges[at].what,
                  hemotusap_voicing_within(0, HEMOTUSAP_NO_BASS, ranges[at].lowest,
                                           ranges[at].highest, classes, sizeof classes, intervals,
                                           sizeof intervals, HEMOTUSAP_NO_LEAD, keys, sizeof keys),
                  keys);
}

/* The last is no class, which is told with its place. */
static void bad_pair(void)
{
    static const uint8_t classes[] = {0, 4, 12}, intervals[] = {0, 4, 8};
    uint8_t keys[HEMOTUSAP_VOICING_ROOM];
    show("classes 0 4 12",
         hemotusap_voicing(0, HEMOTUSAP_NO_BASS, classes, sizeof classes, intervals,
                           sizeof intervals, HEMOTUSAP_NO_LEAD, keys, sizeof keys),
         keys);
}

int main(void)
{
    symbols();
    sets();
    strict_symbols();
    keys();
    elements();
    qualities();
    notes();
    voicings();
    bad_pair();
}
