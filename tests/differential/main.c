/* The differential driver: the library beside the oracle, suite by suite.
     differential suites
     differential requests SUITE SEED COUNT | oracle | differential check SUITE SEED COUNT */
#include <errno.h>
#include <stdlib.h>
#include <string.h>

#include "suite.h"

static uint64_t number_of(const char *word)
{
    char *end;
    errno = 0;
    unsigned long long number = strtoull(word, &end, 10);
    if (*word < '0' || *word > '9' || *end != '\0' || errno != 0)
        fail("`%s` is no number", word);
    return number;
}

static enum mode mode_of(const char *word)
{
    if (strcmp(word, "requests") == 0)
        return REQUESTING;
    if (strcmp(word, "check") == 0)
        return CHECKING;
    fail("`%s` is neither requests nor check", word);
}

static int run_suite(enum mode mode, const struct suite *suite, uint64_t seed, uint64_t count)
{
    struct run run = {.suite = suite->name, .mode = mode, .seed = seed, .count = count};
    /* First, since a wrong refusal then shows at once. */
    if (mode == CHECKING)
        suite->stated(&run);
    if (suite->asked != NULL)
        suite->asked(&run);
    return run_end(&run, suite->asked != NULL);
}

int main(int count, char **words)
{
    if (count == 2 && strcmp(words[1], "suites") == 0) {
        suites_print(stdout);
        return EXIT_SUCCESS;
    }
    if (count != 5)
        fail("suites, or requests|check SUITE SEED COUNT");
    const struct suite *suite = suite_named(words[2]);
    if (suite == NULL)
        fail("no suite `%s`", words[2]);
    return run_suite(mode_of(words[1]), suite, number_of(words[3]), number_of(words[4]));
}
