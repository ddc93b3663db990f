#include "call.h"

#include <inttypes.h>

enum { MOST_TOLD = 400 }; /* bytes of an input, in a message */

/* Inputs are long and many, and this is several times as fast as fprintf. */
static void print_byte(uint8_t byte, FILE *to)
{
    putc(' ', to);
    if (byte >= 100)
        putc('0' + byte / 100, to);
    if (byte >= 10)
        putc('0' + byte / 10 % 10, to);
    putc('0' + byte % 10, to);
}

static void print_range(struct range range, size_t most, FILE *to)
{
    fprintf(to, " %zu", range.length);
    for (size_t at = 0; at < range.length && at < most; at++)
        print_byte(range.bytes[at], to);
    if (range.length > most)
        fputs(" ..", to);
}

static void print_call(const struct call *call, size_t most, FILE *to)
{
    fputs(call->name, to);
    for (size_t at = 0; at < call->count; at++)
        fprintf(to, " %" PRId64, call->numbers[at]);
    for (size_t at = 0; at < call->input_count; at++)
        print_range(call->inputs[at], most, to);
}

void call_request(const struct call *call, FILE *to)
{
    print_call(call, SIZE_MAX, to);
    putc('\n', to);
}

void call_tell(const struct call *call, FILE *to)
{
    print_call(call, MOST_TOLD, to);
    if (call->room != NO_OUTPUT)
        fprintf(to, " (room %" PRId64 ")", call->room);
}
