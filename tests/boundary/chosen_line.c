#include "chosen_line.h"

struct chosen_line chosen_line(const struct call *call)
{
    const struct chosen_line none = {FLAT, {call->inputs[FLAT].length, 0}};
    uint32_t lines_before = (uint32_t)call->numbers[NUMBER];
    int32_t fifths = (int32_t)call->numbers[FIFTHS];
    if (fifths < -MOST_FIFTHS || fifths > MOST_FIFTHS)
        return none;
    int64_t chosen = fifths > 0 ? SHARP : FLAT;
    struct range listing = call->inputs[chosen];
    size_t start = 0;
    for (size_t at = 0; at < listing.length; at++)
        if (listing.bytes[at] == '\n') {
            if (lines_before-- == 0)
                return (struct chosen_line){chosen, {start, at - start}};
            start = at + 1;
        }
    return none;
}
