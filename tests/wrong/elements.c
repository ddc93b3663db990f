#include "elements.h"

#include <string.h>

#define VALUE(value) "<degree-value>" value "</degree-value>"
#define ALTER(alter) "<degree-alter>" alter "</degree-alter>"
#define TYPE(type) "<degree-type>" type "</degree-type>"
#define SEVENTH(alter) VALUE("7") ALTER(alter) TYPE("add")

static void replace(char *text, const char *from, const char *to)
{
    for (char *at = text; (at = strstr(at, from)) != NULL; at += strlen(to)) {
        memmove(at + strlen(to), at + strlen(from), strlen(at + strlen(from)) + 1);
        memcpy(at, to, strlen(to));
    }
}

/* A piece moved to where another begins, behind it; neither is there twice. */
static void move_behind(char *piece, const char *piece_end, char *place)
{
    char held[256];
    size_t length = (size_t)(piece_end - piece);
    memcpy(held, piece, length);
    memmove(piece, piece_end, (size_t)(place - piece_end));
    memcpy(place - length, held, length);
}

void exchange_types(char *text)
{
    replace(text, TYPE("add"), TYPE("added"));
    replace(text, TYPE("subtract"), TYPE("add"));
    replace(text, TYPE("added"), TYPE("subtract"));
}

void lose_the_last_degree(char *text)
{
    char *last = NULL;
    for (char *at = text; (at = strstr(at, "<degree>")) != NULL; at++)
        last = at;
    if (last != NULL)
        strcpy(last, "</harmony>");
}

void put_the_first_degree_last(char *text)
{
    char *first = strstr(text, "<degree>");
    if (first != NULL)
        move_behind(first, strstr(first, "</degree>") + strlen("</degree>"),
                    strstr(first, "</harmony>"));
}

/* In which 7 is the major seventh. */
void count_from_a_major_chord(char *text)
{
    replace(text, SEVENTH("0"), SEVENTH("-1"));
    replace(text, SEVENTH("1"), SEVENTH("0"));
}

void number_b5_as_a_fourth(char *text)
{
    replace(text, VALUE("5") ALTER("-1"), VALUE("4") ALTER("1"));
}

void subtract_an_altered_tone(char *text)
{
    replace(text, ALTER("0") TYPE("subtract"), ALTER("-1") TYPE("subtract"));
}

void put_the_bass_before_the_kind(char *text)
{
    char *kind = strstr(text, "<kind>"), *bass = strstr(text, "<bass>");
    if (bass != NULL)
        move_behind(kind, bass, strstr(bass, "</bass>") + strlen("</bass>"));
}

void write_an_alter_of_0(char *text)
{
    replace(text, "</root-step></root>", "</root-step><root-alter>0</root-alter></root>");
}

void name_roots_by_sharps(char *text)
{
    replace(text, "G</root-step><root-alter>-1", "F</root-step><root-alter>1");
}

void take_major_minor_for_minor(char *text)
{
    replace(text, ">major-minor<", ">minor-seventh<");
}

void put_white_space(char *text)
{
    replace(text, "</kind>", "</kind> ");
}
