/* A suite: the cases of one function of the library, or of several that belong together. */
#ifndef SUITE_H
#define SUITE_H

#include "run.h"

struct suite {
    const char *name;
    /* Cases whose answer the oracle gives: the same walk requests and checks. NULL: none. */
    void (*asked)(struct run *run);
    /* Cases whose outcome paper 01 states, refusals above all: checked only. */
    void (*stated)(struct run *run);
};

/* The suite of this name; NULL: none. */
const struct suite *suite_named(const char *name);

/* A line for each suite: its name, and whether it asks the oracle. */
void suites_print(FILE *to);

#endif
