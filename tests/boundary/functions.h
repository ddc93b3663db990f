/* The functions of the boundary, each with what functions.def says of it. */
#ifndef FUNCTIONS_H
#define FUNCTIONS_H

#include <stdbool.h>

#include "call.h"
#include "hemotusap.h"

enum { MOST_PARAMETERS = 12, MOST_INPUTS = 2, MOST_REFUSALS = 8, NO_REFUSAL = 0, NO_INPUT = -1 };

/* Its type in C. */
enum kind { NO_PARAMETER, A_NUMBER, A_SIGNED_NUMBER, AN_INPUT, AN_OUTPUT, A_WORD };

/* What an input is for, where any bytes will do: a drawn one had better be made so. */
enum text { NO_TEXT, A_SUFFIX, A_LISTING };

struct parameter {
    enum kind kind;
    size_t at;         /* among the call's numbers, its inputs or its words */
    int64_t low, high; /* of the numbers or bytes that are good */
    enum text text;
};

/* From lowest to highest; divided by the unit, none leaves more than this. */
struct answers {
    int64_t low, high, unit, most_left;
};

/* A host gets minus the number, or of one that tells a place minus (256 * number + place). */
struct refusal {
    int64_t number;
    int input; /* in which it tells the place of a bad byte, or NO_INPUT */
};

/* Makes a call on the library: its inputs are lent ones, and so is the output, of its room. Where
   it is for words, it stands where one may. */
typedef int64_t callee(const struct call *call, uint8_t *out);

struct function {
    const char *name;
    const char *suite;
    callee *callee;
    struct parameter parameters[MOST_PARAMETERS + 1]; /* as C has them, up to NO_PARAMETER */
    struct answers answers;
    struct refusal refusals[MOST_REFUSALS + 1]; /* up to the number NO_REFUSAL */
};

enum {
#define FUNCTION(name, ...) FUNCTION_##name,
#include "functions.def"
    FUNCTIONS
};

extern const struct function functions[FUNCTIONS];

/* A call of plain numbers, by its function's name. */
#define CALL(name, ...) REQUEST(#name, &functions[FUNCTION_##name], __VA_ARGS__)

/* A call on one input. */
#define CALL_ON(name_, input)                                                              \
    (&(const struct call){.name = #name_,                                                  \
                          .function = &functions[FUNCTION_##name_],                        \
                          .inputs = (input),                                               \
                          .input_count = 1,                                                \
                          .room = NO_OUTPUT})

/* Whether it is lent bytes to read. */
bool function_reads(const struct function *function);

/* Whether its answer counts the bytes of an output that it writes.. */
bool function_writes(const struct function *function);

/* ..and the bytes of the words that it writes, whatever the answer. */
size_t function_word_bytes(const struct function *function);

/* Makes the call. The drivers have no other way to the library, so that calls that are wrong on
   purpose can be put in its place. */
int64_t call_library(const struct call *call, uint8_t *out);

#endif
