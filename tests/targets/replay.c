/* The stored requests (crates/requests/src/main.rt tells of them), answered through the boundary of
   whatever target this is compiled for: from standard input to standard output, byte by byte what
   the program `requests` prints. */
#include <inttypes.h>
#include <stdlib.h>
#include <string.h>
#ifdef _WIN32
#include <fcntl.h>
#include <io.h>
#endif

#include "fail.h"
#include "functions.h"

enum { MOST_LINE = 4096, MOST_RANGE = 1200, FRONT = 64, FULL_STOP = '.' };

/* What stands behind a request's name, a letter for each part: 0 to 5 the call's number of this
   place; a, b an input, a list; t an input, the line's rest; r the room of an output that is told
   as a text, R of one that is told as numbers; c codes, whose listings are both inputs; l the next
   input's length. */
static const char *const orders[FUNCTIONS] = {
    [FUNCTION_quality] = "0",
    [FUNCTION_suffix] = "r0",
    [FUNCTION_listing] = "Rt",
    [FUNCTION_tones] = "r01",
    [FUNCTION_candidates] = "ra",
    [FUNCTION_candidate_count] = "a",
    [FUNCTION_note_text] = "r01",
    [FUNCTION_get_note] = "0123",
    [FUNCTION_transpose] = "012345",
    [FUNCTION_voicing] = "R012ab",
    [FUNCTION_harmony] = "r012",
    [FUNCTION_candidate] = "0a",
    [FUNCTION_candidates_strict] = "ra",
    [FUNCTION_candidates_sharp] = "ra",
    [FUNCTION_candidates_strict_sharp] = "ra",
    [FUNCTION_candidate_line] = "0c1ll",
    [FUNCTION_voicing_within] = "R014ab23",
};

struct request {
    struct call call;
    const char *order;
    int64_t numbers[MOST_PARAMETERS];
    struct range inputs[MOST_INPUTS];
    uint8_t bytes[MOST_INPUTS][MOST_RANGE];
    size_t lengths; /* told so far */
};

/* Commas between; none is a minus. */
static struct range read_list(const char *part, uint8_t *bytes)
{
    struct range list = {bytes, 0};
    char *end = (char *)part;
    while (*part != '-' && list.length < MOST_RANGE) {
        bytes[list.length++] = (uint8_t)strtoul(part, &end, 10);
        if (*end != ',')
            break;
        part = end + 1;
    }
    return list;
}

/* Both listings of the codes, with full stops behind them. */
static void make_listings(struct request *request, const char *part)
{
    static uint8_t bytes[MOST_RANGE];
    struct range codes = read_list(part, bytes);
    struct call flat = *CALL_ON(candidates, &codes), sharp = *CALL_ON(candidates_sharp, &codes);
    flat.room = sharp.room = MOST_RANGE;
    memset(request->bytes, FULL_STOP, sizeof request->bytes);
    call_library(&flat, request->bytes[0]);
    call_library(&sharp, request->bytes[1]);
}

static void read_part(struct request *request, char kind, const char *part)
{
    size_t at;
    switch (kind) {
    case 'r':
    case 'R':
        request->call.room = strtoll(part, NULL, 10);
        break;
    case 'a':
    case 'b':
        at = (size_t)(kind - 'a');
        request->inputs[at] = read_list(part, request->bytes[at]);
        break;
    case 't':
        request->inputs[0] = (struct range){(const uint8_t *)part, strlen(part)};
        break;
    case 'c':
        make_listings(request, part);
        break;
    case 'l':
        at = request->lengths++;
        request->inputs[at] = (struct range){request->bytes[at], strtoull(part, NULL, 10)};
        break;
    default:
        request->numbers[kind - '0'] = strtoll(part, NULL, 10);
    }
}

static unsigned named(const char *line)
{
    size_t length = strcspn(line, " ");
    for (unsigned at = 0; at < FUNCTIONS; at++)
        if (strlen(functions[at].name) == length && memcmp(functions[at].name, line, length) == 0)
            return at;
    fail("no request: %s", line);
}

/* Each part stands behind a space. */
static void read_request(struct request *request, const char *line)
{
    unsigned function = named(line);
    *request = (struct request){.call = {.function = &functions[function]}};
    request->call.numbers = request->numbers;
    request->call.inputs = request->inputs;
    request->order = orders[function];
    const char *part = line;
    for (const char *kind = request->order; *kind != '\0'; kind++) {
        part = strchr(part, ' ');
        if (part == NULL)
            fail("no request: %s", line);
        read_part(request, *kind, ++part);
    }
    if (request->call.room > MOST_RANGE)
        fail("no request: %s", line);
}

static void print_out(const struct request *request, int64_t given, const uint8_t *out)
{
    const uint64_t *words = (const uint64_t *)out;
    size_t room = (size_t)request->call.room;
    if (function_word_bytes(request->call.function) > 0) {
        printf(" %" PRIu64 " %" PRIu64 " ", words[0], words[1]);
        fwrite(request->inputs[given].bytes + words[0], 1, (size_t)words[1], stdout);
    } else if (*request->order == 'R') {
        for (size_t at = 0; at < room; at++)
            printf(" %d", out[at]);
    } else if (*request->order == 'r') {
        putchar(' ');
        fwrite(out, 1, room, stdout);
    }
}

/* What was not lent holds what it held. */
static void check_around(const struct request *request, const uint8_t *whole, const char *line)
{
    size_t lent = (size_t)request->call.room + function_word_bytes(request->call.function);
    for (size_t at = 0; at < FRONT + MOST_RANGE; at++)
        if ((at < FRONT || at >= FRONT + lent) && whole[at] != FULL_STOP)
            fail("writes what it was not lent: %s", line);
}

static void reply(const char *line)
{
    static struct request request;
    static _Alignas(uint64_t) uint8_t whole[FRONT + MOST_RANGE];
    uint8_t *out = whole + FRONT;
    read_request(&request, line);
    memset(whole, FULL_STOP, sizeof whole);
    int64_t given = call_library(&request.call, out);
    check_around(&request, whole, line);
    printf("%" PRId64, given);
    print_out(&request, given, out);
    putchar('\n');
}

int main(void)
{
    static char line[MOST_LINE];
#ifdef _WIN32
    _setmode(_fileno(stdin), _O_BINARY);
    _setmode(_fileno(stdout), _O_BINARY);
#endif
    while (fgets(line, sizeof line, stdin) != NULL) {
        line[strcspn(line, "\n")] = '\0';
        reply(line);
    }
}
