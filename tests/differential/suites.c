/* The suites, each a file suite_NAME.c, as the boundary's rows name them, and one of laws. */
#include <stdbool.h>
#include <string.h>

#include "length.h"
#include "suite.h"

#define FUNCTION(name, tried_by, ...) extern const struct suite tried_by##_suite;
#include "functions.def"
extern const struct suite moved_part_suite;

static const struct suite *const suites[] = {
#define FUNCTION(name, tried_by, ...) &tried_by##_suite,
#include "functions.def"
    &moved_part_suite,
};

const struct suite *suite_named(const char *name)
{
    for (unsigned at = 0; at < LENGTH(suites); at++)
        if (strcmp(suites[at]->name, name) == 0)
            return suites[at];
    return NULL;
}

/* One suite may try several functions. */
static bool is_first(unsigned number)
{
    for (unsigned at = 0; at < number; at++)
        if (suites[at] == suites[number])
            return false;
    return true;
}

void suites_print(FILE *to)
{
    for (unsigned at = 0; at < LENGTH(suites); at++)
        if (is_first(at))
            fprintf(to, "%s %s\n", suites[at]->name, suites[at]->asked ? "oracle" : "alone");
}
