#include "listing_rooms.h"

#include "draw.h"
#include "length.h"
#include "strict.h"
#include "written.h"

enum { MOST_ROOM = 1024 };

static void in_room(struct run *run, const struct range *list, const struct listings *want,
                    size_t room)
{
    const struct lines *flat = &want->flat, *sharp = &want->sharp;
    expect_written_in(run, CALL_ON(candidates, list), flat->text, flat->length, room);
    expect_strict_in(run, CALL_ON(candidates_strict, list), flat, room);
    expect_written_in(run, CALL_ON(candidates_sharp, list), sharp->text, sharp->length, room);
    expect_strict_in(run, CALL_ON(candidates_strict_sharp, list), sharp, room);
}

void expect_in_every_room(struct run *run, const struct range *list, const struct listings *want)
{
    for (size_t room = 0; room <= want->flat.length + 1; room++)
        in_room(run, list, want, room);
}

void expect_in_some_rooms(struct run *run, const struct range *list, const struct listings *want,
                          uint64_t state)
{
    uint32_t length = (uint32_t)want->flat.length;
    const uint32_t rooms[] = {0, length, length + 1, length == 0 ? 0 : length - 1,
                              draw_below(&state, length + 1), draw_below(&state, MOST_ROOM)};
    for (unsigned at = 0; at < LENGTH(rooms); at++)
        in_room(run, list, want, rooms[at]);
}
