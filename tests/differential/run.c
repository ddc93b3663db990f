#define _GNU_SOURCE /* getline */

#include "run.h"

#include <inttypes.h>
#include <stdarg.h>
#include <stdlib.h>
#include <string.h>

enum { MOST_MISMATCHES = 10 };

/* The next line without its LF; NULL at the end of input. */
static const char *next_line(struct run *run)
{
    ssize_t length = getline(&run->line, &run->line_room, stdin);
    if (length < 0)
        return NULL;
    if (run->line[length - 1] != '\n')
        fail("%s: the oracle's last line is cut: `%s`", run->suite, run->line);
    run->line[length - 1] = '\0';
    return run->line;
}

const char *oracle_answer(struct run *run, const struct call *call)
{
    if (run->mode == REQUESTING) {
        call_request(call, stdout);
        return NULL;
    }
    const char *line = next_line(run);
    if (line == NULL)
        fail("%s: the oracle's answers end after %" PRIu64, run->suite, run->answers);
    return line;
}

void mismatch(struct run *run, const struct call *call, const char *format, ...)
{
    va_list words;
    va_start(words, format);
    call_tell(call, stderr);
    fputs(": ", stderr);
    vfprintf(stderr, format, words);
    fputc('\n', stderr);
    va_end(words);
    if (++run->mismatches == MOST_MISMATCHES)
        fail("%s: stopped at %d mismatches", run->suite, MOST_MISMATCHES);
}

static void compare(struct run *run, const struct call *call, int64_t got, int64_t want)
{
    if (got != want)
        mismatch(run, call, "answered %" PRId64 ", expected %" PRId64, got, want);
}

void expect_answer(struct run *run, const struct call *call, int64_t got, int64_t want)
{
    run->answers++;
    compare(run, call, got, want);
}

void expect_refusal(struct run *run, const struct call *call, int64_t got, int64_t want)
{
    run->refusals++;
    compare(run, call, got, -want);
}

int run_end(struct run *run, int oracle_asked)
{
    if (run->mode == REQUESTING) {
        if (fflush(stdout) != 0 || ferror(stdout))
            fail("%s: the requests could not be written", run->suite);
        return EXIT_SUCCESS;
    }
    if (oracle_asked && next_line(run) != NULL)
        fail("%s: the oracle has an answer left over: `%s`", run->suite, run->line);
    if (run->mismatches > 0)
        fail("%s: %" PRIu64 " mismatches", run->suite, run->mismatches);
    if (run->answers == 0)
        fail("%s: nothing was compared", run->suite);
    printf("%s: %" PRIu64 " answers and %" PRIu64 " refusals agree\n", run->suite, run->answers,
           run->refusals);
    return EXIT_SUCCESS;
}
