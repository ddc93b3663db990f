#include "sharp_names.h"

#include "named_lines.h"
#include "run.h"

struct listings listings_in(const char *line)
{
    struct listings both = {.flat = lines_in(line)};
    if (!rename_lines(&both.flat, flat_names, sharp_names, 0, &both.sharp))
        fail("the oracle's line `%s` has no name where one stands", line);
    return both;
}
