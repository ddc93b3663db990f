#include "lists.h"

#include "draw.h"

enum { SHORT = 16, FEW_APART = 431 };

struct list list_of_set(uint32_t set, unsigned first, unsigned octaves)
{
    struct list list = {.length = 0};
    for (unsigned above = 0; above < CLASSES; above++) {
        unsigned class = (first + above) % CLASSES;
        unsigned octave = (set + first + 5 * above) % octaves;
        if (set >> class & 1)
            list.codes[list.length++] = (uint8_t)(class + CLASSES * octave);
    }
    return list;
}

bool is_one_of_few(uint32_t set, unsigned first)
{
    return (set * CLASSES + first) % FEW_APART == 0 || set == ALL_CLASSES;
}

static uint8_t drawn_code(uint64_t *state, uint32_t classes, uint32_t last)
{
    uint8_t code;
    do
        code = (uint8_t)draw_below(state, last + 1);
    while ((classes >> code % CLASSES & 1) == 0);
    return code;
}

/* Half of the lists are short, since a long one at random has all twelve classes. */
struct list drawn_list_up_to(uint64_t *state, uint32_t last)
{
    uint32_t longest = draw_below(state, 2) == 0 ? SHORT : LONGEST_DRAWN;
    uint32_t classes = draw_set(state, CLASSES);
    struct list list = {.length = draw_below(state, longest + 1)};
    for (size_t at = 0; at < list.length; at++)
        list.codes[at] = drawn_code(state, classes, last);
    return list;
}

static void spoil(uint64_t *state, struct list *list)
{
    if (list->length == 0)
        return;
    uint32_t place = draw_below(state, (uint32_t)list->length);
    list->codes[place] = (uint8_t)(LAST_KEY + 1 + draw_below(state, LAST_CODE - LAST_KEY));
}

struct list drawn_list(uint64_t *state)
{
    uint32_t kind = draw_below(state, 8);
    struct list list = drawn_list_up_to(state, kind < 2 ? LAST_CODE : LAST_KEY);
    if (kind == 2 || kind == 3)
        spoil(state, &list);
    if (kind == 3)
        spoil(state, &list);
    return list;
}
