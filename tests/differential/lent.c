#define _DEFAULT_SOURCE /* MAP_ANONYMOUS */

#include "lent.h"

#include <stdlib.h>
#include <string.h>
#include <sys/mman.h>
#include <unistd.h>

#include "fail.h"

enum { CANARY = 64 };

struct lent lent_open(size_t most)
{
    size_t page = (size_t)sysconf(_SC_PAGESIZE);
    size_t watched = most + 2 * CANARY;
    size_t usable = (watched + page - 1) / page * page;
    uint8_t *pages = mmap(NULL, usable + 2 * page, PROT_NONE, MAP_PRIVATE | MAP_ANONYMOUS, -1, 0);
    uint8_t *before = malloc(watched);
    if (pages == MAP_FAILED || before == NULL ||
        mprotect(pages + page, usable, PROT_READ | PROT_WRITE) != 0)
        fail("no memory for a range of %zu bytes", most);
    uint8_t *start = pages + page;
    return (struct lent){.start = start, .end = start + usable, .before = before, .most = most};
}

uint8_t *lend(struct lent *lent, enum place place, const uint8_t *content, size_t length)
{
    if (length > lent->most || (place == NOWHERE && length > 0))
        fail("a range of %zu bytes cannot be lent there", length);
    size_t in_front = place == AFTER_FAULTING_PAGE ? 0 : CANARY;
    size_t behind = place == BETWEEN_CANARIES || place == AFTER_FAULTING_PAGE ? CANARY : 0;
    lent->watched_length = in_front + length + behind;
    lent->watched = in_front == 0 ? lent->start : lent->end - lent->watched_length;
    for (size_t at = 0; at < lent->watched_length; at++)
        lent->watched[at] = (uint8_t)(0xC5 ^ (at * 29));
    lent->range = lent->watched + in_front;
    if (length > 0)
        memcpy(lent->range, content, length);
    memcpy(lent->before, lent->watched, lent->watched_length);
    return place == NOWHERE ? NULL : lent->range;
}

bool lent_holds(const struct lent *lent, const uint8_t *want, size_t length,
                struct difference *first)
{
    for (size_t at = 0; at < lent->watched_length; at++) {
        ptrdiff_t from = lent->watched + at - lent->range;
        bool written = from >= 0 && (size_t)from < length;
        uint8_t wanted = written ? want[from] : lent->before[at];
        if (lent->watched[at] != wanted) {
            *first = (struct difference){from, lent->watched[at], wanted};
            return false;
        }
    }
    return true;
}
