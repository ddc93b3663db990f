/* The inverse of the oracle's suffixes: the rooted sets of each text. */
#ifndef SUFFIXES_H
#define SUFFIXES_H

#include <stdbool.h>

#include "run.h"

enum { SETS = 4096, MOST_SETS = 16, LONGEST_SUFFIX = 27 };

struct suffix {
    uint8_t text[LONGEST_SUFFIX];
    size_t length;
    uint8_t sets[2 * MOST_SETS]; /* as the library lists them */
    size_t listed;               /* bytes of them */
};

/* Asks the oracle for the suffix of every rooted set; false where that was only requested. */
bool suffixes_ask(struct run *run);

/* Those asked for, each text once, numbered from 0. */
unsigned suffix_count(void);
const struct suffix *suffix_at(unsigned at);

/* The one that is this text; of no length and without sets where none is. */
const struct suffix *suffix_of(struct range text);

#endif
