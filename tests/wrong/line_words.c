#include "line_words.h"

#include "own_faults.h"

uint64_t *words(uint8_t *out)
{
    return (uint64_t *)out;
}

bool is_empty_part(const struct call *call, int64_t got, uint8_t *out)
{
    return got == FLAT && words(out)[LINE_START] == call->inputs[FLAT].length &&
           words(out)[LINE_LENGTH] == 0;
}

static int64_t with_numbers(const struct call *call, uint8_t *out, int64_t number, int64_t fifths)
{
    const int64_t numbers[] = {number, fifths};
    struct call other = *call;
    other.numbers = numbers;
    return __real_call_library(&other, out);
}

int64_t with_number(const struct call *call, uint8_t *out, int64_t number)
{
    return with_numbers(call, out, number, call->numbers[FIFTHS]);
}

int64_t with_fifths(const struct call *call, uint8_t *out, int64_t fifths)
{
    return with_numbers(call, out, call->numbers[NUMBER], fifths);
}
