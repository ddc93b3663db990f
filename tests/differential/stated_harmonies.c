#include "stated_harmonies.h"

#include <string.h>

#include "length.h"
#include "numbers_above.h"
#include "written.h"

enum {
    CLASSES = 12,
    SETS = 4096,
    LONGEST = HEMOTUSAP_HARMONY_ROOM,
    NO_BASS = HEMOTUSAP_NO_BASS
};

#define ELEMENT(...) "<harmony>" __VA_ARGS__ "</harmony>"
#define NATURAL(part, step) "<" part "><" part "-step>" step "</" part "-step></" part ">"
#define FLAT(part, step)                                                             \
    "<" part "><" part "-step>" step "</" part "-step><" part "-alter>-1</" part     \
    "-alter></" part ">"
#define KIND(name) "<kind>" name "</kind>"
#define DEGREE(value, alter, type)                                                   \
    "<degree><degree-value>" value "</degree-value><degree-alter>" alter             \
    "</degree-alter><degree-type>" type "</degree-type></degree>"
#define ADD(value, alter) DEGREE(value, alter, "add")
#define SUBTRACT(value) DEGREE(value, "0", "subtract")

/* Paper 02, Q-2: its own example, a set of each rule that is easy to get wrong, and a bass that is
   the root or no class of the set. */
static const struct row {
    int64_t root, bass, set;
    const char *text;
} rows[] = {
    {0, NO_BASS, 145, ELEMENT(NATURAL("root", "C") KIND("major"))},
    {0, NO_BASS, 73, ELEMENT(NATURAL("root", "C") KIND("diminished"))},
    {0, NO_BASS, 585, ELEMENT(NATURAL("root", "C") KIND("diminished-seventh"))},
    {0, NO_BASS, 257, ELEMENT(NATURAL("root", "C") KIND("augmented") SUBTRACT("3"))},
    {6, NO_BASS, 693,
     ELEMENT(FLAT("root", "G") KIND("major-sixth") ADD("9", "0") ADD("11", "0"))},
    {1, NO_BASS, 1177, ELEMENT(FLAT("root", "D") KIND("dominant") ADD("9", "1"))},
    {2, NO_BASS, 1297,
     ELEMENT(NATURAL("root", "D") KIND("dominant") ADD("13", "-1") SUBTRACT("5"))},
    {0, 4, 81,
     ELEMENT(NATURAL("root", "C") KIND("major") NATURAL("bass", "E") ADD("5", "-1")
             SUBTRACT("5"))},
    {6, 10, 81,
     ELEMENT(FLAT("root", "G") KIND("major") FLAT("bass", "B") ADD("5", "-1") SUBTRACT("5"))},
    {10, 3, 3345,
     ELEMENT(FLAT("root", "B") KIND("dominant") FLAT("bass", "E") ADD("7", "1")
             ADD("13", "-1") SUBTRACT("5"))},
    {9, 9, 137, ELEMENT(NATURAL("root", "A") KIND("minor") NATURAL("bass", "A"))},
    {11, 8, 2193, ELEMENT(NATURAL("root", "B") KIND("major-seventh") FLAT("bass", "A"))},
};

/* A room cut to two bytes would be none. */
static void stated_row(struct run *run, const struct row *row)
{
    const struct call *call = CALL(harmony, row->root, row->bass, row->set);
    const uint8_t *text = (const uint8_t *)row->text;
    size_t length = strlen(row->text);
    expect_written(run, call, text, length);
    expect_written_in(run, call, text, length, 65536);
}

/* In no room, in too little for any element, and in enough for each. */
static void refused(struct run *run, int64_t root, int64_t bass, int64_t set, int64_t refusal)
{
    static const size_t rooms[] = {0, 73, LONGEST};
    for (unsigned at = 0; at < LENGTH(rooms); at++)
        expect_unwritten_in(run, CALL(harmony, root, bass, set), refusal, rooms[at]);
}

/* A root or a bass that is bad too changes nothing. */
static void refuse_set(struct run *run, int64_t set)
{
    static const int64_t pairs[][2] = {
        {0, NO_BASS}, {11, 11}, {CLASSES, NO_BASS}, {0, CLASSES},
        {255, 0},     {0, 256}, {UINT32_MAX, UINT32_MAX},
    };
    for (unsigned at = 0; at < LENGTH(pairs); at++)
        refused(run, pairs[at][0], pairs[at][1], set, HEMOTUSAP_NOT_A_SET);
}

static void refuse_classes(struct run *run, int64_t root, int64_t bass)
{
    static const int64_t sets[] = {1, 145, SETS - 1};
    for (unsigned at = 0; at < LENGTH(sets); at++)
        refused(run, root, bass, sets[at], HEMOTUSAP_BAD_CLASS);
}

static void refuse_root(struct run *run, int64_t root)
{
    refuse_classes(run, root, NO_BASS);
    refuse_classes(run, root, 0);
    refuse_classes(run, root, CLASSES);
}

static void refuse_bass(struct run *run, int64_t bass)
{
    refuse_classes(run, 0, bass);
    refuse_classes(run, 11, bass);
}

void stated_harmonies(struct run *run)
{
    for (unsigned at = 0; at < LENGTH(rows); at++)
        stated_row(run, &rows[at]);
    for (int64_t set = 0; set < SETS; set += 2)
        refuse_set(run, set);
    numbers_above(run, SETS, refuse_set);
    classes_above(run, refuse_root, refuse_bass);
}
