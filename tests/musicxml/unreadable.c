#include "unreadable.h"

#include <string.h>

#include "fail.h"
#include "length.h"
#include "reading.h"

#define ELEMENT(...) "<harmony>" __VA_ARGS__ "</harmony>"
#define ROOT "<root><root-step>C</root-step></root>"
#define BASS "<bass><bass-step>E</bass-step></bass>"
#define KIND "<kind>major</kind>"
#define DEGREE(value, alter, type)                                               \
    "<degree><degree-value>" value "</degree-value><degree-alter>" alter         \
    "</degree-alter><degree-type>" type "</degree-type></degree>"

static const struct wrong {
    const char *text;
    const char *why; /* NULL: the parser says */
} wrong[] = {
    {"", NULL},
    {"<harmony>" ROOT KIND, NULL},
    {ELEMENT(ROOT KIND) "<harmony/>", NULL},
    {ELEMENT(ROOT KIND "<!-- -->"), "neither an element nor a text"},
    {"<harmony type=\"explicit\">" ROOT KIND "</harmony>", "an attribute"},
    {"<direction>" ROOT KIND "</direction>", "a part that is missing, or out of its order"},
    {ELEMENT(KIND), "a part that is missing, or out of its order"},
    {ELEMENT(ROOT), "a part that is missing, or out of its order"},
    {ELEMENT(KIND ROOT), "a part that is missing, or out of its order"},
    {ELEMENT(ROOT BASS KIND), "a part that is missing, or out of its order"},
    {ELEMENT(ROOT KIND BASS BASS), "a part too many, or out of its order"},
    {ELEMENT(ROOT KIND DEGREE("9", "0", "add") BASS), "a part too many, or out of its order"},
    {ELEMENT(ROOT " " KIND), "text between elements"},
    {ELEMENT("<root/>" KIND), "a part that is missing, or out of its order"},
    {ELEMENT("<root><root-step>H</root-step></root>" KIND), "a step that is no letter"},
    {ELEMENT("<root><root-step> </root-step></root>" KIND), "a step that is no letter"},
    {ELEMENT("<root><root-step>Db</root-step></root>" KIND), "a step that is no letter"},
    {ELEMENT("<root><root-alter>-1</root-alter><root-step>D</root-step></root>" KIND),
     "a part that is missing, or out of its order"},
    {ELEMENT("<root><root-step>D</root-step><root-alter>b</root-alter></root>" KIND), "no number"},
    {ELEMENT(ROOT "<kind>Major</kind>"), "a kind that has no such name"},
    {ELEMENT(ROOT "<kind><major/></kind>"), "elements where a text belongs"},
    {ELEMENT(ROOT KIND DEGREE("0", "0", "add")), "a degree that no chord has"},
    {ELEMENT(ROOT KIND DEGREE("14", "0", "add")), "a degree that no chord has"},
    {ELEMENT(ROOT KIND DEGREE("", "0", "add")), "no number"},
    {ELEMENT(ROOT KIND DEGREE("9", "", "add")), "no number"},
    {ELEMENT(ROOT KIND DEGREE("9", "0", "alter")), "a degree that is neither added nor subtracted"},
    {ELEMENT(ROOT KIND DEGREE("3", "0", "add")), "a tone added that is there"},
    {ELEMENT(ROOT KIND DEGREE("9", "0", "add") DEGREE("9", "0", "add")),
     "a tone added that is there"},
    {ELEMENT(ROOT KIND DEGREE("7", "0", "subtract")), "a tone subtracted that is not there"},
    {ELEMENT(ROOT KIND DEGREE("5", "-1", "subtract")), "a tone subtracted that is not there"},
    {ELEMENT(ROOT KIND DEGREE("5", "0", "subtract") DEGREE("5", "0", "subtract")),
     "a tone subtracted twice"},
    {ELEMENT(ROOT KIND "<degree><degree-value>9</degree-value></degree>"),
     "a part that is missing, or out of its order"},
};

unsigned refuse_unreadable(void)
{
    struct harmony read;
    for (unsigned at = 0; at < LENGTH(wrong); at++) {
        const char *text = wrong[at].text, *why = wrong[at].why;
        const char *said = read_harmony((const uint8_t *)text, strlen(text), &read);
        if (said == NULL || (why != NULL && strcmp(said, why) != 0))
            fail("the reader says of `%s` %s", text, said == NULL ? "nothing" : said);
    }
    return LENGTH(wrong);
}
