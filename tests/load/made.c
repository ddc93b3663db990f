#include "made.h"

#include "draw.h"
#include "length.h"

struct source {
    const uint8_t *data;
    size_t size;
    size_t at;
};

static uint32_t take(struct source *from, unsigned bytes)
{
    uint32_t taken = 0;
    for (; bytes > 0; bytes--)
        taken = taken << 8 | (from->size == 0 ? 0 : from->data[from->at++ % from->size]);
    return taken;
}

/* Of 16 numbers 13 are good, two stand at an edge and one is any of 32 bits. */
static int64_t take_number(struct source *from, const struct parameter *good)
{
    const int64_t edges[] = {good->low - 1, good->high + 1, 255, 256, INT32_MAX, INT32_MIN, -1, 16};
    uint32_t kind = take(from, 1) % 16;
    if (kind == 15)
        return (int32_t)take(from, 4);
    if (kind >= 13)
        return edges[take(from, 1) % LENGTH(edges)];
    return good->low + take(from, 2) % (good->high - good->low + 1);
}

static int64_t take_room(struct source *from, int64_t most)
{
    uint32_t kind = take(from, 1) % 8;
    if (kind < 2)
        return most;
    return kind < 7 ? take(from, 1) % 48 : take(from, 2) % (MOST_ROOM + 1);
}

/* Any bytes are seldom a suffix: this is one, and every fourth has a byte damaged. */
static size_t take_suffix(struct source *from, uint8_t *bytes)
{
    int64_t length = hemotusap_suffix(take(from, 2) % 4096 | 1, bytes, MOST_INPUT);
    if (length <= 0)
        return 0;
    if (take(from, 1) % 4 == 0)
        bytes[take(from, 1) % length] = (uint8_t)take(from, 1);
    return (size_t)length;
}

/* So that a first bad byte stands far behind too. */
static void spoil_one(struct source *from, int64_t highest, uint8_t *bytes, size_t length)
{
    if (length == 0 || highest == UINT8_MAX)
        return;
    size_t place = take(from, 2) % length;
    bytes[place] = (uint8_t)(highest + 1 + take(from, 1) % (UINT8_MAX - highest));
}

/* Of 16 inputs 12 are good; one is of any bytes, two have such a one in 5 or in 16, and one has a
   single bad one. */
static size_t take_bytes(struct source *from, int64_t highest, uint8_t *bytes)
{
    static const unsigned apart[16] = {1, 5, 16};
    uint32_t kind = take(from, 1), goodness = take(from, 1);
    size_t length = kind % 8 == 0 ? take(from, 2) % (MOST_INPUT + 1) : kind / 8 % 18;
    unsigned between = apart[goodness % 16], from_first = goodness / 16;
    for (size_t at = 0; at < length; at++) {
        uint32_t byte = take(from, 1);
        bool any = between != 0 && (at + from_first) % between == 0;
        bytes[at] = (uint8_t)(any ? byte : byte % (highest + 1));
    }
    if (goodness % 16 == 3)
        spoil_one(from, highest, bytes, length);
    return length;
}

/* Any bytes have few lines: here one in five ends a line. */
static size_t take_listing(struct source *from, uint8_t *bytes)
{
    size_t length = take_bytes(from, UINT8_MAX, bytes);
    for (size_t at = 0; at < length; at++)
        if (bytes[at] % 5 == 0)
            bytes[at] = '\n';
    return length;
}

static size_t take_text(struct source *from, enum text text, uint8_t *bytes)
{
    return text == A_SUFFIX ? take_suffix(from, bytes) : take_listing(from, bytes);
}

static struct range take_input(struct source *from, const struct parameter *input, uint8_t *bytes)
{
    bool made = input->text != NO_TEXT && take(from, 1) % 2 == 0;
    size_t length =
        made ? take_text(from, input->text, bytes) : take_bytes(from, input->high, bytes);
    return (struct range){bytes, length};
}

static void take_numbers(struct source *from, struct made *made)
{
    const struct parameter *at = made->call.function->parameters;
    for (; at->kind != NO_PARAMETER; at++)
        if (at->kind == A_NUMBER || at->kind == A_SIGNED_NUMBER) {
            made->numbers[at->at] = take_number(from, at);
            made->call.count++;
        }
}

static void take_inputs(struct source *from, struct made *made)
{
    const struct parameter *at = made->call.function->parameters;
    for (; at->kind != NO_PARAMETER; at++)
        if (at->kind == AN_INPUT) {
            made->inputs[at->at] = take_input(from, at, made->bytes[at->at]);
            made->call.input_count++;
        }
}

void make_call(struct made *made, const uint8_t *data, size_t size)
{
    struct source from = {data, size, 0};
    const struct function *function = &functions[take(&from, 1) % FUNCTIONS];
    made->call = (struct call){.name = function->name,
                               .function = function,
                               .numbers = made->numbers,
                               .inputs = made->inputs,
                               .room = NO_OUTPUT};
    made->nowhere = take(&from, 1) % 4 == 0;
    take_numbers(&from, made);
    if (function_writes(function))
        made->call.room = take_room(&from, function->answers.high);
    else if (function_word_bytes(function) > 0)
        made->call.room = (int64_t)function_word_bytes(function);
    take_inputs(&from, made);
}

void draw_call(struct made *made, unsigned function, uint64_t number)
{
    uint8_t data[MOST_BYTES];
    uint64_t state = draws_of(function, number * MOST_BYTES);
    for (size_t at = 0; at < sizeof data; at++)
        data[at] = (uint8_t)(draw(&state) >> 56);
    data[0] = (uint8_t)function;
    make_call(made, data, sizeof data);
}
