#include "functions.h"

/* First the parameters as arguments, in a callee for each function.. */
#define NUMBER(at, ...) (uint32_t)call->numbers[at]
#define SIGNED(at, ...) (int32_t)call->numbers[at]
#define INPUT(at, highest) call->inputs[at].bytes, call->inputs[at].length
#define SUFFIX(at) INPUT(at, 255)
#define LINES(at) INPUT(at, 255)
#define OUTPUT out, (size_t)call->room
#define WORD(at) (uint64_t *)out + (at)

#define FUNCTION(name, suite, parameters, ...)                         \
    static int64_t name(const struct call *call, uint8_t *out)         \
    {                                                                  \
        (void)out;                                                     \
        return hemotusap_##name parameters;                            \
    }
#include "functions.def"

#undef NUMBER
#undef SIGNED
#undef INPUT
#undef SUFFIX
#undef LINES
#undef OUTPUT
#undef WORD

/* ..then as what is known of them. */
#define NUMBER(at, ...) {A_NUMBER, at, __VA_ARGS__, NO_TEXT}
#define SIGNED(at, ...) {A_SIGNED_NUMBER, at, __VA_ARGS__, NO_TEXT}
#define INPUT(at, highest) {AN_INPUT, at, 0, highest, NO_TEXT}
#define SUFFIX(at) {AN_INPUT, at, 0, 255, A_SUFFIX}
#define LINES(at) {AN_INPUT, at, 0, 255, A_LISTING}
#define OUTPUT {AN_OUTPUT, 0, 0, 255, NO_TEXT}
#define WORD(at) {A_WORD, at, 0, INT64_MAX, NO_TEXT}
#define ANY(low, high) {low, high, 1, 0}
#define EVEN(low, high) {low, high, 2, 0}
#define NOTE {0, 16 * 6 + 12, 16, 12}
#define CHORD {0, 65536 * 15 + 4096 * 11 + 4095, 65536, 4096 * 11 + 4095}
#define REFUSAL(name) {HEMOTUSAP_##name, NO_INPUT}
#define PLACED(name, at) {HEMOTUSAP_##name, at}
#define NEVER {NO_REFUSAL, NO_INPUT}
#define LIST(...) {__VA_ARGS__}

const struct function functions[FUNCTIONS] = {
#define FUNCTION(name, suite, parameters, answers, ...) \
    {#name, #suite, name, LIST parameters, answers, {__VA_ARGS__}},
#include "functions.def"
};

static size_t count_of(enum kind kind, const struct function *function)
{
    size_t count = 0;
    for (const struct parameter *at = function->parameters; at->kind != NO_PARAMETER; at++)
        count += at->kind == kind;
    return count;
}

bool function_reads(const struct function *function)
{
    return count_of(AN_INPUT, function) > 0;
}

bool function_writes(const struct function *function)
{
    return count_of(AN_OUTPUT, function) > 0;
}

size_t function_word_bytes(const struct function *function)
{
    return count_of(A_WORD, function) * sizeof(uint64_t);
}

int64_t call_library(const struct call *call, uint8_t *out)
{
    return call->function->callee(call, out);
}
