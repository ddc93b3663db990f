#include "reading.h"

#include <stdlib.h>
#include <string.h>

#include "kinds.h"
#include "parsed.h"

/* The first fault stays. Behind it reading goes on over what is empty, and means nothing. */
struct reading {
    const char *why;
    const struct kind *kind;
    uint32_t added, subtracted;
};

static void refuse(struct reading *reading, const char *why)
{
    if (reading->why == NULL)
        reading->why = why;
}

/* What an element holds beside no text: not even white space. */
static const struct element *inside(struct reading *reading, const struct element *element)
{
    if (element->text[0] != '\0')
        refuse(reading, "text between elements");
    return element->inside;
}

static const char *text_of(struct reading *reading, const struct element *element)
{
    if (element->inside != NULL)
        refuse(reading, "elements where a text belongs");
    return element->text;
}

static int number_in(struct reading *reading, const struct element *element)
{
    char *end;
    const char *text = text_of(reading, element);
    long number = strtol(text, &end, 10);
    if (end == text || *end != '\0' || number < -99 || number > 99)
        refuse(reading, "no number");
    return (int)number;
}

/* The part that comes next, if it has this name; or NULL. */
static const struct element *next_if(const struct element **at, const char *name)
{
    const struct element *next = *at;
    if (next == NULL || strcmp(next->name, name) != 0)
        return NULL;
    *at = next->behind;
    return next;
}

static const struct element *next(struct reading *reading, const struct element **at,
                                  const char *name)
{
    static const struct element none;
    const struct element *found = next_if(at, name);
    if (found == NULL)
        refuse(reading, "a part that is missing, or out of its order");
    return found == NULL ? &none : found;
}

static void end_of(struct reading *reading, const struct element *at)
{
    if (at != NULL)
        refuse(reading, "a part too many, or out of its order");
}

static int class_in(int semitones)
{
    return (semitones % 12 + 12) % 12;
}

/* A root or a bass. */
static uint32_t read_class(struct reading *reading, const struct element *note, const char *step,
                           const char *alter)
{
    static const char steps[] = "C D EF G A B";
    const struct element *at = inside(reading, note);
    const char *letter = text_of(reading, next(reading, &at, step));
    const char *found = strchr(steps, letter[0]);
    const struct element *altered = next_if(&at, alter);
    int above = altered == NULL ? 0 : number_in(reading, altered);
    end_of(reading, at);
    if (strlen(letter) != 1 || letter[0] == ' ' || found == NULL) {
        refuse(reading, "a step that is no letter");
        return 0;
    }
    return (uint32_t)class_in((int)(found - steps) + above);
}

static void read_kind(struct reading *reading, const struct element *kind)
{
    static const struct kind none = {.name = ""};
    reading->kind = kind_named(text_of(reading, kind));
    if (reading->kind == NULL) {
        refuse(reading, "a kind that has no such name");
        reading->kind = &none;
    }
}

/* Counted from a dominant chord, whatever the kind. */
static void add(struct reading *reading, int value, int alter)
{
    if (tone_of_dominant(value) == NO_TONE) {
        refuse(reading, "a degree that no chord has");
        return;
    }
    uint32_t class = UINT32_C(1) << class_in(tone_of_dominant(value) + alter);
    if ((reading->added | classes_of(reading->kind)) & class)
        refuse(reading, "a tone added that is there");
    reading->added |= class;
}

/* Counted from the degree that the kind has. */
static void subtract(struct reading *reading, int value, int alter)
{
    if (tone_of(reading->kind, value) == NO_TONE || alter != 0) {
        refuse(reading, "a tone subtracted that is not there");
        return;
    }
    uint32_t class = UINT32_C(1) << tone_of(reading->kind, value);
    if (reading->subtracted & class)
        refuse(reading, "a tone subtracted twice");
    reading->subtracted |= class;
}

static void read_degree(struct reading *reading, const struct element *degree)
{
    const struct element *at = inside(reading, degree);
    int value = number_in(reading, next(reading, &at, "degree-value"));
    int alter = number_in(reading, next(reading, &at, "degree-alter"));
    const char *type = text_of(reading, next(reading, &at, "degree-type"));
    end_of(reading, at);
    if (strcmp(type, "add") == 0)
        add(reading, value, alter);
    else if (strcmp(type, "subtract") == 0)
        subtract(reading, value, alter);
    else
        refuse(reading, "a degree that is neither added nor subtracted");
}

const char *read_harmony(const uint8_t *text, size_t length, struct harmony *read)
{
    struct reading reading = {.why = NULL};
    const struct element *at = parse(text, length, &reading.why), *part;
    if (at == NULL)
        return reading.why;
    const struct element *parts = inside(&reading, next(&reading, &at, "harmony"));
    read->root = read_class(&reading, next(&reading, &parts, "root"), "root-step", "root-alter");
    read_kind(&reading, next(&reading, &parts, "kind"));
    read->bass = NO_BASS_READ;
    if ((part = next_if(&parts, "bass")) != NULL)
        read->bass = read_class(&reading, part, "bass-step", "bass-alter");
    while ((part = next_if(&parts, "degree")) != NULL)
        read_degree(&reading, part);
    end_of(&reading, parts);
    read->set = (classes_of(reading.kind) & ~reading.subtracted) | reading.added;
    return reading.why;
}
