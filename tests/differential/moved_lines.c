#include "moved_lines.h"

#include <inttypes.h>
#include <string.h>

#include "length.h"
#include "lent_call.h"
#include "named_lines.h"
#include "raised_lists.h"
#include "written.h"

static const struct entry {
    const struct function *function;
    unsigned last; /* code that it takes */
    name_table *names;
} entries[] = {
    {&functions[FUNCTION_candidates], LAST_CODE, &flat_names},
    {&functions[FUNCTION_candidates_strict], LAST_KEY, &flat_names},
    {&functions[FUNCTION_candidates_sharp], LAST_CODE, &sharp_names},
    {&functions[FUNCTION_candidates_strict_sharp], LAST_KEY, &sharp_names},
};

static struct call call_of(const struct entry *entry, const struct range *list)
{
    return (struct call){.name = entry->function->name,
                         .function = entry->function,
                         .inputs = list,
                         .input_count = 1,
                         .room = HEMOTUSAP_CANDIDATES_ROOM};
}

/* What is written of this list; none, and told, where the call answers no count. */
static struct lines lines_of(struct run *run, const struct entry *entry, const struct list *list)
{
    static const uint8_t old[HEMOTUSAP_CANDIDATES_ROOM];
    const struct range codes = {list->codes, list->length};
    const struct call call = call_of(entry, &codes);
    struct lines lines = {.length = 0};
    int64_t got;
    if (!call_lent(run, &call, BETWEEN_CANARIES, old, &got))
        return lines;
    if (got < 0 || got > call.room) {
        mismatch(run, &call, "answered %" PRId64 ", which is no count", got);
        return lines;
    }
    lines.length = (size_t)got;
    memcpy(lines.text, lent_output(), lines.length);
    return lines;
}

static void expect_lines(struct run *run, const struct entry *entry, const struct list *list,
                         const struct lines *want, size_t more_room)
{
    const struct range codes = {list->codes, list->length};
    const struct call call = call_of(entry, &codes);
    expect_written_in(run, &call, want->text, want->length, want->length + more_room);
}

static void moved_by(struct run *run, const struct entry *entry, const struct list *list,
                     const struct lines *were, unsigned amount)
{
    const struct list higher = raised_list(list, amount);
    struct lines want;
    if (!rename_lines(were, *entry->names, *entry->names, amount, &want))
        fail("%s: %s writes a line without a name", run->suite, entry->function->name);
    if (amount % CLASSES == 0)
        want = *were;
    expect_lines(run, entry, &higher, &want, amount % 2);
}

static void move_on(struct run *run, const struct entry *entry, const struct list *list,
                    uint64_t state)
{
    const struct lines were = lines_of(run, entry, list);
    const struct list other = list_with_same_classes(list, entry->last, &state);
    for (unsigned amount = 0; amount <= entry->last - highest_code(list); amount++)
        moved_by(run, entry, list, &were, amount);
    expect_lines(run, entry, &other, &were, 0);
}

void expect_lines_to_move(struct run *run, const struct list *list, uint64_t state)
{
    for (unsigned at = 0; at < LENGTH(entries); at++)
        if (highest_code(list) <= entries[at].last)
            move_on(run, &entries[at], list, state);
}
