#include "parsed.h"

#include <expat.h>
#include <stdbool.h>
#include <string.h>

#include "fail.h"

enum { MOST_ELEMENTS = 64, DEEPEST = 8 };

/* One document at a time. */
static struct element elements[MOST_ELEMENTS];
static unsigned count;
static struct element *open_at[DEEPEST]; /* the element that is open at each depth */
static const struct element **next_at[DEEPEST + 1]; /* where the next of a depth belongs */
static unsigned depth;
static const char *wrong;

static void stop(XML_Parser parser, const char *why)
{
    wrong = why;
    XML_StopParser(parser, XML_FALSE);
}

static void started(void *parser, const XML_Char *name, const XML_Char **attributes)
{
    bool too_much =
        count == MOST_ELEMENTS || depth == DEEPEST || strlen(name) >= sizeof elements[0].name;
    if (attributes[0] != NULL || too_much) {
        stop(parser, too_much ? "too many elements, or too long a name" : "an attribute");
        return;
    }
    struct element *element = &elements[count++];
    *element = (struct element){.inside = NULL};
    strcpy(element->name, name);
    *next_at[depth] = element;
    next_at[depth] = &element->behind;
    open_at[depth++] = element;
    next_at[depth] = &element->inside;
}

static void ended(void *parser, const XML_Char *name)
{
    (void)parser, (void)name;
    depth--;
}

static void said(void *parser, const XML_Char *text, int length)
{
    char *to = open_at[depth - 1]->text;
    size_t before = strlen(to);
    if (before + (size_t)length >= sizeof elements[0].text) {
        stop(parser, "too long a text");
        return;
    }
    memcpy(to + before, text, (size_t)length);
    to[before + (size_t)length] = '\0';
}

/* Comments, declarations, instructions: the parser hands over whatever has no handler. */
static void told_otherwise(void *parser, const XML_Char *text, int length)
{
    (void)text, (void)length;
    stop(parser, "neither an element nor a text");
}

/* One parser for all, since to make one takes longer than to parse an element; it loses its
   handlers when it is made ready again. */
static XML_Parser ready_parser(void)
{
    static XML_Parser parser;
    if (parser == NULL)
        parser = XML_ParserCreate("UTF-8");
    else
        XML_ParserReset(parser, "UTF-8");
    if (parser == NULL)
        fail("there is no parser");
    XML_UseParserAsHandlerArg(parser);
    XML_SetElementHandler(parser, started, ended);
    XML_SetCharacterDataHandler(parser, said);
    XML_SetDefaultHandler(parser, told_otherwise);
    return parser;
}

const struct element *parse(const uint8_t *text, size_t length, const char **why)
{
    static const struct element *outermost;
    XML_Parser parser = ready_parser();
    count = depth = 0;
    wrong = NULL;
    outermost = NULL;
    next_at[0] = &outermost;
    if (XML_Parse(parser, (const char *)text, (int)length, XML_TRUE) == XML_STATUS_OK)
        return outermost;
    *why = wrong != NULL ? wrong : XML_ErrorString(XML_GetErrorCode(parser));
    return NULL;
}

const char *parser_name(void)
{
    return XML_ExpatVersion();
}
