/* The lines of a listing by the names in them, which a reader with tables of its own finds. */
#ifndef NAMED_LINES_H
#define NAMED_LINES_H

#include <stdbool.h>

#include "lists.h"
#include "oracle_lines.h"

/* By class. */
typedef const char *const name_table[CLASSES];

extern name_table flat_names, sharp_names;

/* The listing with other names: where one table has a class, the other's name of the class that is
   higher by this amount; all that stands between the names is the same. False where the reader
   meets no name, or has no room. */
bool rename_lines(const struct lines *lines, name_table from, name_table to, unsigned amount,
                  struct lines *renamed);

#endif
