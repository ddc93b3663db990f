#include "moved_parts.h"

#include "candidate_calls.h"
#include "raised_lists.h"
#include "written.h"

/* Those of a list, in their order. */
struct candidates {
    int64_t count;
    int64_t parts[CLASSES];
};

static struct candidates candidates_of(struct run *run, const struct list *list)
{
    const struct range codes = {list->codes, list->length};
    struct candidates found = {.count = 0};
    int64_t parts;
    while ((parts = candidate_of(run, &codes, found.count)) != 0) {
        if (found.count == CLASSES)
            fail("%s: a list has more candidates than classes", run->suite);
        found.parts[found.count++] = parts;
    }
    return found;
}

static int64_t raised(int64_t parts, unsigned amount)
{
    uint32_t root = hemotusap_candidate_root(parts), bass = hemotusap_candidate_bass(parts);
    if (bass != HEMOTUSAP_NO_BASS)
        bass = (bass + amount) % CLASSES;
    return packed_candidate((root + amount) % CLASSES, bass, hemotusap_candidate_set(parts));
}

static void moved_by(struct run *run, const struct list *list, const struct candidates *were,
                     unsigned amount)
{
    const struct list higher = raised_list(list, amount);
    const struct range codes = {higher.codes, higher.length};
    expect_number(run, CALL_ON(candidate_count, &codes), were->count);
    for (int64_t number = 0; number < were->count; number++)
        expect_candidate(run, &codes, number, raised(were->parts[number], amount));
    expect_candidate(run, &codes, were->count, 0);
}

void expect_parts_to_move(struct run *run, const struct list *list)
{
    const struct candidates were = candidates_of(run, list);
    for (unsigned amount = 0; amount <= LAST_CODE - highest_code(list); amount++)
        moved_by(run, list, &were, amount);
}
