#include "candidate_calls.h"

#include "lent_call.h"
#include "written.h"

int64_t packed_candidate(int64_t root, int64_t bass, int64_t set)
{
    return 65536 * (bass == HEMOTUSAP_NO_BASS ? 15 : bass) + 4096 * root + set;
}

static struct call call_of(const struct range *list, const int64_t *number)
{
    struct call call = *CALL_ON(candidate, list);
    call.numbers = number;
    call.count = 1;
    return call;
}

void expect_candidate(struct run *run, const struct range *list, int64_t number, int64_t want)
{
    const struct call call = call_of(list, &number);
    expect_number(run, &call, want);
}

int64_t candidate_of(struct run *run, const struct range *list, int64_t number)
{
    const struct call call = call_of(list, &number);
    int64_t got = 0;
    call_lent(run, &call, BETWEEN_CANARIES, NULL, &got);
    return got;
}
