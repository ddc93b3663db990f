#include "raised_lists.h"

#include "draw.h"

enum { MOST_REPEATS = 3 };

unsigned highest_code(const struct list *list)
{
    unsigned highest = 0;
    for (size_t at = 0; at < list->length; at++)
        if (list->codes[at] > highest)
            highest = list->codes[at];
    return highest;
}

struct list raised_list(const struct list *list, unsigned amount)
{
    struct list higher = *list;
    for (size_t at = 0; at < list->length; at++)
        higher.codes[at] = (uint8_t)(list->codes[at] + amount);
    return higher;
}

/* In any octave up to this code. */
static void put_code(struct list *to, unsigned class, unsigned last, uint64_t *state)
{
    unsigned octave = draw_below(state, (last - class) / CLASSES + 1);
    to->codes[to->length++] = (uint8_t)(class + CLASSES * octave);
}

/* Behind each class that is new come some that have occurred. */
struct list list_with_same_classes(const struct list *list, unsigned last, uint64_t *state)
{
    unsigned order[CLASSES], count = 0, heard = 0;
    struct list other = {.length = 0};
    for (size_t at = 0; at < list->length; at++) {
        unsigned class = list->codes[at] % CLASSES;
        if (heard >> class & 1)
            continue;
        heard |= 1u << class;
        order[count++] = class;
        put_code(&other, class, last, state);
        for (unsigned more = draw_below(state, MOST_REPEATS + 1); more > 0; more--)
            put_code(&other, order[draw_below(state, count)], last, state);
    }
    return other;
}
