/* The fuzz target: each input is one call, made twice on ranges against pages that trap, and held
   to what the header says of every call. */
#include <inttypes.h>
#include <stdlib.h>
#include <string.h>

#include "answers.h"
#include "draw.h"
#include "lent_call.h"
#include "made.h"

enum { COUNTERS = 512, ENOUGH = 100000 };

/* The fuzzer's own names. */
int LLVMFuzzerTestOneInput(const uint8_t *data, size_t size);
int LLVMFuzzerInitialize(int *count, char ***words);
size_t LLVMFuzzerCustomMutator(uint8_t *data, size_t size, size_t most, unsigned seed);
size_t LLVMFuzzerMutate(uint8_t *data, size_t size, size_t most);

struct outcome {
    int64_t answer;
    size_t written;
    uint8_t bytes[MOST_ROOM];
};

/* What an output holds at the first call, and other bytes at the second, so that one left unwritten
   shows. */
static uint8_t old[2][MOST_ROOM];

static struct run run = {.suite = "fuzz", .mode = CHECKING};
static uint64_t executions;
static bool calling; /* an exit from within is no end of the run */
static uint64_t answered[FUNCTIONS];
static uint64_t refused[FUNCTIONS][MOST_REFUSALS + 1]; /* the last: by a refusal it has not */

/* The library is compiled as it is shipped, and tells the fuzzer nothing of its branches. So a new
   outcome is what counts as news, as far as a short hash tells. Volatile, since none reads it. */
__attribute__((section("__libfuzzer_extra_counters"))) static volatile uint8_t
    came[FUNCTIONS][COUNTERS];

static void count(const struct made *made, const struct outcome *outcome)
{
    ptrdiff_t at_row = made->call.function - functions;
    uint32_t hash = (uint32_t)outcome->answer;
    for (size_t at = 0; at < outcome->written; at++)
        hash = hash * 31 + outcome->bytes[at];
    came[at_row][hash % COUNTERS] = 1;
    if (outcome->answer < 0)
        refused[at_row][refusal_at(&made->call, outcome->answer)]++;
    else
        answered[at_row]++;
}

static bool attempt(const struct made *made, enum place place, const uint8_t *old,
                    struct outcome *outcome)
{
    const struct call *call = &made->call;
    if (!call_lent(&run, call, place, old, &outcome->answer))
        return false;
    if (!may_answer(call, outcome->answer, lent_output())) {
        mismatch(&run, call, "answered %" PRId64 ", or wrote, what the header has not",
                 outcome->answer);
        return false;
    }
    if (call->room == NO_OUTPUT)
        return true;
    outcome->written = written_by(call, outcome->answer);
    memcpy(outcome->bytes, lent_output(), outcome->written);
    expect_output(&run, call, outcome->bytes, outcome->written);
    return true;
}

int LLVMFuzzerTestOneInput(const uint8_t *data, size_t size)
{
    static struct made made;
    static struct outcome first, second;
    calling = true;
    make_call(&made, data, size);
    first.written = second.written = 0;
    if (attempt(&made, made.nowhere ? NOWHERE : BEFORE_FAULTING_PAGE, old[0], &first) &&
        attempt(&made, AFTER_FAULTING_PAGE, old[1], &second)) {
        if (first.answer != second.answer ||
            memcmp(first.bytes, second.bytes, first.written) != 0)
            mismatch(&run, &made.call, "called again it answers otherwise");
        count(&made, &first);
    }
    if (run.mismatches > 0)
        abort(); /* the fuzzer keeps the input */
    executions++;
    calling = false;
    return 0;
}

/* Half of the inputs are new from end to end: changes of old ones alone stay short and alike. */
size_t LLVMFuzzerCustomMutator(uint8_t *data, size_t size, size_t most, unsigned seed)
{
    uint64_t state = draws_of(seed, 0);
    if (draw_below(&state, 2) == 0)
        return LLVMFuzzerMutate(data, size, most);
    size = 1 + draw_below(&state, draw_below(&state, 8) == 0 ? (uint32_t)most : 64);
    size = size < most ? size : most;
    for (size_t at = 0; at < size; at++)
        data[at] = (uint8_t)(draw(&state) >> 56);
    return size;
}

static bool all_met(size_t function)
{
    for (unsigned at = 0; functions[function].refusals[at].number != NO_REFUSAL; at++)
        if (refused[function][at] == 0)
            return false;
    return answered[function] > 0;
}

/* A long run that has not met each refusal of each function has tested nothing. */
static void tell(void)
{
    uint64_t answers = 0, missing = 0;
    if (calling)
        return;
    for (size_t function = 0; function < FUNCTIONS; function++) {
        answers += answered[function];
        missing += !all_met(function);
    }
    printf("fuzz: %" PRIu64 " executions of 2 calls, %" PRIu64 " answered and %" PRIu64
           " refused; 0 faults, 0 bytes changed elsewhere\n",
           executions, answers, executions - answers);
    fflush(stdout);
    if (executions >= ENOUGH && missing > 0) {
        fprintf(stderr, "fuzz: %" PRIu64 " functions with a refusal never met\n", missing);
        _Exit(EXIT_FAILURE);
    }
}

int LLVMFuzzerInitialize(int *count, char ***words)
{
    (void)count, (void)words;
    for (size_t at = 0; at < MOST_ROOM; at++) {
        old[0][at] = (uint8_t)(0x5A ^ (at * 37));
        old[1][at] = (uint8_t)~old[0][at];
    }
    return atexit(tell);
}
