/* Faults of tones: a tritone on another letter than its interval's. The tables of degrees by which
   tones might be spelled differ there alone. */
#include <stdio.h>
#include <string.h>

#include "note_name.h"
#include "own_faults.h"

enum { LETTERS = 7, CLASSES = 12, FOURTH = 3, FIFTH = 4, TRITONE = 6 };

static const char letters[] = "CDEFGAB";
static const int naturals[LETTERS] = {0, 2, 4, 5, 7, 9, 11};

struct tone {
    int letter, count;
};

static int count_read(char sign)
{
    return sign == '#' ? 1 : sign == 'x' ? 2 : sign == 'b' ? -1 : 0;
}

static struct tone tone_read(const char *name)
{
    struct tone tone = {(int)(strchr(letters, *name) - letters), 0};
    while (count_read(*++name) != 0)
        tone.count += count_read(*name);
    return tone;
}

static int pitch(struct tone tone)
{
    return naturals[tone.letter] + tone.count;
}

static struct tone on_letter(int letter, int wanted)
{
    int above = (wanted - naturals[letter] + TRITONE + 2 * CLASSES) % CLASSES;
    return (struct tone){letter, above - TRITONE};
}

/* Letters are counted from the root's, which is the first. */
static void put_tritone(char *text, int from, int to)
{
    char given[HEMOTUSAP_TONES_ROOM + 1];
    snprintf(given, sizeof given, "%s", text);
    const struct tone root = tone_read(given);
    for (const char *name = given; name != NULL; name = strchr(name, ' ')) {
        if (*name == ' ')
            *text++ = *name++;
        struct tone tone = tone_read(name);
        bool is_tritone = (pitch(tone) - pitch(root) + CLASSES) % CLASSES == TRITONE;
        if (is_tritone && tone.letter == (root.letter + from) % LETTERS)
            tone = on_letter((root.letter + to) % LETTERS, pitch(tone));
        text = put_note_name(text, letters[tone.letter], tone.count);
    }
    *text = '\0';
}

/* By `From<Interval>`, as before request Q-3. */
static void put_b5_on_the_fourth(char *text)
{
    put_tritone(text, FIFTH, FOURTH);
}

static void put_sharp_11_on_the_fifth(char *text)
{
    put_tritone(text, FOURTH, FIFTH);
}

const struct own_fault faults_of_letters[] = {
    {"b5_on_the_fourth", .edit = put_b5_on_the_fourth},
    {"sharp_11_on_the_fifth", .edit = put_sharp_11_on_the_fifth},
    {.name = NULL},
};
