/* Ranges to lend to the library, of exact length, with a watch on what stands in and around. */
#ifndef LENT_H
#define LENT_H

#include <stdbool.h>
#include <stddef.h>
#include <stdint.h>

enum place {
    BETWEEN_CANARIES,     /* a byte altered on either side shows */
    BEFORE_FAULTING_PAGE, /* a byte touched behind the range faults */
    AFTER_FAULTING_PAGE,  /* a byte touched in front of it faults */
    NOWHERE               /* NULL, for length 0 alone */
};

struct lent {
    uint8_t *start;  /* of the memory that may be touched: a page that faults ends here */
    uint8_t *end;    /* and another begins here */
    uint8_t *range;  /* the one last lent */
    uint8_t *watched;
    size_t watched_length;
    uint8_t *before; /* the watched bytes as they were when lent */
    size_t most;     /* longest range that can be lent */
};

struct lent lent_open(size_t most);

/* Lends a range that holds `content`; the one lent before is gone. Where words fill it, each stands
   where a word may: pages end and canaries come in multiples of a word. */
uint8_t *lend(struct lent *lent, enum place place, const uint8_t *content, size_t length);

struct difference {
    ptrdiff_t at; /* counted from the range's start */
    uint8_t found;
    uint8_t wanted;
};

/* Whether the range now begins with `want` and every other watched byte is as it was; else the
   first that is not. */
bool lent_holds(const struct lent *lent, const uint8_t *want, size_t length,
                struct difference *first);

#endif
