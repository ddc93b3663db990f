/* Every harmony element of the library, parsed by expat and read back: each rooted set, on each
   root, with no bass and over each. */
#include <inttypes.h>
#include <stdlib.h>
#include <string.h>

#include "parsed.h"
#include "reading.h"
#include "run.h"
#include "unreadable.h"

enum { CLASSES = 12, SETS = 4096, ELEMENTS = SETS / 2 * CLASSES * (CLASSES + 1) };

static struct run run = {.suite = "musicxml", .mode = CHECKING};

static void read_back(const struct call *call, const uint8_t *text, size_t length)
{
    struct harmony read;
    const char *why = read_harmony(text, length, &read);
    if (why != NULL)
        mismatch(&run, call, "%s: `%.*s`", why, (int)length, (const char *)text);
    else if (read.root != call->numbers[0] || read.bass != call->numbers[1] ||
             read.set != call->numbers[2])
        mismatch(&run, call, "read back as %" PRIu32 " %" PRIu32 " %" PRIu32, read.root, read.bass,
                 read.set);
}

static void one_element(uint32_t root, uint32_t bass, uint32_t set)
{
    uint8_t out[HEMOTUSAP_HARMONY_ROOM];
    struct call call = *CALL(harmony, root, bass, set);
    call.room = sizeof out;
    int64_t written = call_library(&call, out);
    run.answers++;
    if (written < 0 || written > call.room)
        mismatch(&run, &call, "answered %" PRId64, written);
    else
        read_back(&call, out, (size_t)written);
}

static void every_element(void)
{
    for (uint32_t set = 1; set < SETS; set += 2)
        for (uint32_t root = 0; root < CLASSES; root++) {
            one_element(root, HEMOTUSAP_NO_BASS, set);
            for (uint32_t bass = 0; bass < CLASSES; bass++)
                one_element(root, bass, set);
        }
}

int main(void)
{
    unsigned unreadable = refuse_unreadable();
    every_element();
    if (run.mismatches > 0 || run.answers != ELEMENTS)
        fail("%" PRIu64 " of %" PRIu64 " elements went wrong", run.mismatches, run.answers);
    printf("musicxml: %" PRIu64 " elements, parsed by %s, are each read back to their root, bass"
           " and set; %u wrong ones are refused\n",
           run.answers, parser_name(), unreadable);
    return EXIT_SUCCESS;
}
