/* Paper 02, Q-14, by no oracle: what is answered of a list that is moved by any amount, or of
   another with the same classes, is held to what was answered of the list itself. */
#include "draw.h"
#include "lists.h"
#include "moved_lines.h"
#include "moved_parts.h"
#include "suite.h"

/* One in so many of the lists that the command says, since each is good for thousands of calls. */
enum { DRAWN_APART = 100, LOW_OCTAVES = 3, LAST_CLASS = CLASSES - 1 };

static void one_list(struct run *run, const struct list *list, uint64_t state)
{
    expect_lines_to_move(run, list, state);
    expect_parts_to_move(run, list);
}

static void few_sets(struct run *run)
{
    for (uint32_t set = 1; set < SETS; set++)
        for (unsigned first = 0; first < CLASSES; first++)
            if ((set >> first & 1) && is_one_of_few(set, first)) {
                const struct list list = list_of_set(set, first, LOW_OCTAVES);
                one_list(run, &list, draws_of(run->seed, set * CLASSES + first));
            }
}

static void drawn_lists(struct run *run)
{
    for (uint64_t number = 0; number < run->count; number += DRAWN_APART) {
        uint64_t state = draws_of(run->seed, number);
        uint32_t last = LAST_CLASS + draw_below(&state, LAST_CODE - LAST_CLASS + 1);
        const struct list list = drawn_list_up_to(&state, last);
        one_list(run, &list, state);
    }
}

/* No code, and code 0, can be raised by every amount. */
static void every_list(struct run *run)
{
    one_list(run, &(const struct list){.length = 0}, run->seed);
    one_list(run, &(const struct list){.codes = {0}, .length = 1}, run->seed);
    few_sets(run);
    drawn_lists(run);
}

const struct suite moved_part_suite = {"moved_part", NULL, every_list};
