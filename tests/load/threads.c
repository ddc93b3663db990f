/* Eight threads make the same calls on the same inputs, and each has to get what one thread alone
   got before. */
#define _POSIX_C_SOURCE 200809L /* barriers */

#include <inttypes.h>
#include <pthread.h>
#include <stdatomic.h>
#include <stdlib.h>
#include <string.h>
#include <time.h>

#include "answers.h"
#include "fail.h"
#include "made.h"

/* A function is slow when each of its calls takes this long, as a search of all sets does. */
enum { THREADS = 8, EACH = 200, ROUNDS = 500, SLOW_ROUNDS = 10, SLOW_MICROSECONDS = 20 };

struct outcome {
    int64_t answer;
    _Alignas(uint64_t) uint8_t bytes[MOST_ROOM];
};

static struct made calls[FUNCTIONS][EACH];
static struct outcome alone[FUNCTIONS][EACH];
static unsigned rounds[FUNCTIONS];
static pthread_barrier_t start;
static atomic_long made_by_all, different;

/* The whole output is compared, so the bytes behind the answer are set too. */
static void make(const struct made *made, struct outcome *outcome)
{
    memset(outcome->bytes, 0x5A, sizeof outcome->bytes);
    outcome->answer = call_library(&made->call, outcome->bytes);
}

static bool same(const struct outcome *one, const struct outcome *other)
{
    return one->answer == other->answer &&
           memcmp(one->bytes, other->bytes, sizeof one->bytes) == 0;
}

static void call_all(unsigned function, unsigned first)
{
    struct outcome got;
    for (unsigned at = 0; at < EACH; at++) {
        unsigned which = (first + at) % EACH;
        make(&calls[function][which], &got);
        if (!same(&got, &alone[function][which]))
            atomic_fetch_add(&different, 1);
    }
    atomic_fetch_add(&made_by_all, EACH);
}

/* All are in one function at a time, each in another call of it: what it shared would show. */
static void *work(void *first)
{
    for (unsigned function = 0; function < FUNCTIONS; function++) {
        pthread_barrier_wait(&start);
        for (unsigned round = rounds[function]; round > 0; round--)
            call_all(function, *(const unsigned *)first);
    }
    return NULL;
}

static void run_threads(void)
{
    pthread_t threads[THREADS];
    unsigned firsts[THREADS];
    if (pthread_barrier_init(&start, NULL, THREADS) != 0)
        fail("there is no barrier");
    for (unsigned at = 0; at < THREADS; at++) {
        firsts[at] = at * EACH / THREADS;
        if (pthread_create(&threads[at], NULL, work, &firsts[at]) != 0)
            fail("there is no thread %u", at);
    }
    for (unsigned at = 0; at < THREADS; at++)
        if (pthread_join(threads[at], NULL) != 0)
            fail("thread %u does not end", at);
}

/* What the header has not would be the same from all threads. */
static void check_alone(unsigned function)
{
    for (unsigned at = 0; at < EACH; at++) {
        const struct outcome *got = &alone[function][at];
        if (!may_answer(&calls[function][at].call, got->answer, got->bytes))
            fail("%s answered %" PRId64 ", or wrote, what the header has not",
                 functions[function].name, got->answer);
    }
}

static void call_alone(unsigned function)
{
    for (unsigned at = 0; at < EACH; at++)
        draw_call(&calls[function][at], function, at);
    clock_t before = clock();
    for (unsigned at = 0; at < EACH; at++)
        make(&calls[function][at], &alone[function][at]);
    clock_t slow = (clock_t)EACH * SLOW_MICROSECONDS * CLOCKS_PER_SEC / 1000000;
    rounds[function] = clock() - before < slow ? ROUNDS : SLOW_ROUNDS;
    check_alone(function);
}

int main(void)
{
    for (unsigned function = 0; function < FUNCTIONS; function++)
        call_alone(function);
    run_threads();
    if (different != 0)
        fail("%ld calls of %d threads answered otherwise than alone", (long)different, THREADS);
    printf("threads: %d threads, %ld calls on shared inputs: every answer and byte as alone\n",
           THREADS, (long)made_by_all);
    return EXIT_SUCCESS;
}
