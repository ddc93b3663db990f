/* An XML document as a tree, parsed by expat. */
#ifndef PARSED_H
#define PARSED_H

#include <stddef.h>
#include <stdint.h>

struct element {
    char name[32];
    char text[32];                /* of its own, not of those inside it */
    const struct element *inside; /* the first */
    const struct element *behind; /* the next that stands beside it */
};

/* The outermost element, until the next is parsed. NULL: the text is not well-formed, or has what
   no harmony element has, and `why` says which. */
const struct element *parse(const uint8_t *text, size_t length, const char **why);

/* The parser's name and version. */
const char *parser_name(void);

#endif
