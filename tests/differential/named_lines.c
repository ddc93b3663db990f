#include "named_lines.h"

#include <string.h>

name_table flat_names = {"C", "Db", "D", "Eb", "E", "F", "Gb", "G", "Ab", "A", "Bb", "B"};
name_table sharp_names = {"C", "C#", "D", "D#", "E", "F", "F#", "G", "G#", "A", "A#", "B"};

/* The class whose name stands here, the longest, since no suffix begins with a sign: a 'b' or '#'
   behind a name's letter is the name's. CLASSES where there is none. */
static unsigned class_at(const uint8_t *text, size_t length, name_table names)
{
    unsigned found = CLASSES;
    for (unsigned class = 0; class < CLASSES; class++) {
        size_t long_is = strlen(names[class]);
        if (long_is <= length && memcmp(text, names[class], long_is) == 0 &&
            (found == CLASSES || long_is > strlen(names[found])))
            found = class;
    }
    return found;
}

/* False where there is no room for it. */
static bool put(struct lines *to, const void *bytes, size_t length)
{
    if (length > sizeof to->text - to->length)
        return false;
    memcpy(to->text + to->length, bytes, length);
    to->length += length;
    return true;
}

/* A name begins each line and stands behind '/', which no suffix holds. */
static bool is_before_a_name(uint8_t byte)
{
    return byte == '\n' || byte == '/';
}

bool rename_lines(const struct lines *lines, name_table from, name_table to, unsigned amount,
                  struct lines *renamed)
{
    *renamed = (struct lines){.count = lines->count};
    for (size_t at = 0; at < lines->length;) {
        unsigned class = class_at(lines->text + at, lines->length - at, from);
        if (class == CLASSES)
            return false;
        const char *name = to[(class + amount) % CLASSES];
        size_t behind = at += strlen(from[class]);
        while (at < lines->length && !is_before_a_name(lines->text[at++]))
            ;
        if (!put(renamed, name, strlen(name)) ||
            !put(renamed, lines->text + behind, at - behind))
            return false;
    }
    return true;
}
