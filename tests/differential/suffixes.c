#include "suffixes.h"

#include <stdlib.h>
#include <string.h>

static struct suffix suffixes[SETS / 2];
static unsigned count;

static int compare(const void *left, const void *right)
{
    const struct suffix *a = left, *b = right;
    if (a->length != b->length)
        return a->length < b->length ? -1 : 1;
    return memcmp(a->text, b->text, a->length);
}

static struct suffix suffix_in(const char *line, uint32_t set)
{
    struct suffix suffix = {.length = strlen(line), .listed = 2};
    if (suffix.length > LONGEST_SUFFIX)
        fail("the oracle's line `%s` is longer than a suffix can be", line);
    memcpy(suffix.text, line, suffix.length);
    suffix.sets[0] = (uint8_t)(set >> 8);
    suffix.sets[1] = (uint8_t)set;
    return suffix;
}

/* Sets come in rising order, so that a list grows at its end. */
static void add_set(const struct suffix *one)
{
    for (unsigned at = 0; at < count; at++) {
        struct suffix *known = &suffixes[at];
        if (compare(known, one) != 0)
            continue;
        if (known->listed == sizeof known->sets)
            fail("the oracle has more than %d sets of one suffix", MOST_SETS);
        memcpy(known->sets + known->listed, one->sets, one->listed);
        known->listed += one->listed;
        return;
    }
    suffixes[count++] = *one;
}

bool suffixes_ask(struct run *run)
{
    count = 0;
    for (uint32_t set = 1; set < SETS; set += 2) {
        const char *answer = oracle_answer(run, CALL(suffix, set));
        if (answer == NULL)
            continue;
        struct suffix one = suffix_in(answer, set);
        add_set(&one);
    }
    qsort(suffixes, count, sizeof suffixes[0], compare);
    return run->mode == CHECKING;
}

unsigned suffix_count(void)
{
    return count;
}

const struct suffix *suffix_at(unsigned at)
{
    return &suffixes[at];
}

const struct suffix *suffix_of(struct range text)
{
    static const struct suffix none;
    struct suffix wanted = {.length = text.length};
    if (text.length > LONGEST_SUFFIX)
        return &none;
    if (text.length > 0)
        memcpy(wanted.text, text.bytes, text.length);
    const struct suffix *found = bsearch(&wanted, suffixes, count, sizeof suffixes[0], compare);
    return found == NULL ? &none : found;
}
