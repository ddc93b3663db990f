#include "numbers_above.h"

#include "hemotusap.h"

enum { CLASSES = 12, BYTES = 256 };

void numbers_above(struct run *run, int64_t least, refuser *refuse)
{
    for (int bit = 0; bit <= 32; bit++)
        for (int64_t near = -1; near <= 1; near++) {
            int64_t number = (INT64_C(1) << bit) + near;
            if (number >= least && number <= UINT32_MAX)
                refuse(run, number);
        }
}

void classes_above(struct run *run, refuser *refuse_root, refuser *refuse_bass)
{
    for (int64_t class = CLASSES; class < BYTES; class++) {
        refuse_root(run, class);
        if (class != HEMOTUSAP_NO_BASS)
            refuse_bass(run, class);
    }
    numbers_above(run, BYTES, refuse_root);
    numbers_above(run, BYTES, refuse_bass);
}
