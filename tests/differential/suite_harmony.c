/* harmony, by the oracle: every rooted set on every root, with no bass and over every one, each in
   its exact room. */
#include <string.h>

#include "length.h"
#include "stated_harmonies.h"
#include "suite.h"
#include "written.h"

/* Of the elements one in OTHER_ROOMS is tried in rooms around its own, and one in EVERY_ROOM in
   every room, as are some of the longest. */
enum {
    CLASSES = 12,
    SETS = 4096,
    OTHER_ROOMS = 61,
    EVERY_ROOM = 6151,
    LONGEST = HEMOTUSAP_HARMONY_ROOM
};

static void in_other_rooms(struct run *run, const struct call *call, const uint8_t *text,
                           size_t length)
{
    const size_t rooms[] = {0, 1, length - 1, length + 1, 4 * LONGEST};
    for (unsigned at = 0; at < LENGTH(rooms); at++)
        expect_written_in(run, call, text, length, rooms[at]);
}

static void one_element(struct run *run, uint32_t root, uint32_t bass, uint32_t set)
{
    uint32_t number = set * CLASSES * CLASSES + root * CLASSES + bass;
    const struct call *call = CALL(harmony, root, bass, set);
    const char *answer = oracle_answer(run, call);
    if (answer == NULL)
        return;
    const uint8_t *text = (const uint8_t *)answer;
    size_t length = strlen(answer);
    if (length == 0 || length > LONGEST)
        fail("the oracle's line `%s` is of no length that an element has", answer);
    expect_written_in(run, call, text, length, length);
    if (number % OTHER_ROOMS == 0)
        in_other_rooms(run, call, text, length);
    if (number % EVERY_ROOM == 0 || (length == LONGEST && root == bass))
        expect_written(run, call, text, length);
}

static void every_element(struct run *run)
{
    for (uint32_t set = 1; set < SETS; set += 2)
        for (uint32_t root = 0; root < CLASSES; root++) {
            one_element(run, root, HEMOTUSAP_NO_BASS, set);
            for (uint32_t bass = 0; bass < CLASSES; bass++)
                one_element(run, root, bass, set);
        }
}

const struct suite harmony_suite = {"harmony", every_element, stated_harmonies};
