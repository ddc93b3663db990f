/* Faults of candidate_line: listings that are read as if they had other bytes, more or fewer. */
#include <string.h>

#include "lent_call.h"
#include "line_words.h"
#include "own_faults.h"

/* The listings as they are read; a byte more than is ever lent fits. */
static uint8_t bytes[LISTINGS][MOST_LENT + 1];
static struct range listings[LISTINGS];

/* Altered one by one, then read. Where they have no such line, the part is still that of the ranges
   lent, so that the line alone differs. */
static int64_t read_altered(void (*alter)(uint8_t *bytes, size_t *length), const struct call *call,
                            uint8_t *out)
{
    for (unsigned at = 0; at < LISTINGS; at++) {
        struct range lent = call->inputs[at];
        if (lent.length > 0)
            memcpy(bytes[at], lent.bytes, lent.length);
        alter(bytes[at], &lent.length);
        listings[at] = (struct range){bytes[at], lent.length};
    }
    struct call other = *call;
    other.inputs = listings;
    int64_t got = __real_call_library(&other, out);
    if (is_empty_part(&other, got, out))
        words(out)[LINE_START] = call->inputs[FLAT].length;
    return got;
}

static void end_by_an_lf(uint8_t *bytes, size_t *length)
{
    if (*length > 0 && bytes[*length - 1] != '\n')
        bytes[(*length)++] = '\n';
}

static void end_at_0(uint8_t *bytes, size_t *length)
{
    const uint8_t *end = memchr(bytes, 0, *length);
    if (end != NULL)
        *length = (size_t)(end - bytes);
}

static void cut_to_two_bytes(uint8_t *bytes, size_t *length)
{
    (void)bytes;
    *length &= UINT16_MAX;
}

static void put_lfs_for(uint8_t byte, uint8_t *bytes, size_t length)
{
    for (size_t at = 0; at < length; at++)
        if (bytes[at] == byte)
            bytes[at] = '\n';
}

static void put_lfs_for_crs(uint8_t *bytes, size_t *length)
{
    put_lfs_for('\r', bytes, *length);
}

static void put_lfs_for_138(uint8_t *bytes, size_t *length)
{
    put_lfs_for('\n' + 128, bytes, *length);
}

static int64_t bytes_behind_the_last_lf(const struct call *call, uint8_t *out)
{
    return read_altered(end_by_an_lf, call, out);
}

static int64_t ended_by_0(const struct call *call, uint8_t *out)
{
    return read_altered(end_at_0, call, out);
}

static int64_t listings_cut_to_two_bytes(const struct call *call, uint8_t *out)
{
    return read_altered(cut_to_two_bytes, call, out);
}

static int64_t lines_ended_by_cr(const struct call *call, uint8_t *out)
{
    return read_altered(put_lfs_for_crs, call, out);
}

static int64_t lines_ended_by_138(const struct call *call, uint8_t *out)
{
    return read_altered(put_lfs_for_138, call, out);
}

const struct own_fault faults_of_listings[] = {
    {"bytes_behind_the_last_lf", .is_seen = true, .call = bytes_behind_the_last_lf},
    {"ended_by_0", .call = ended_by_0},
    {"listings_cut_to_two_bytes", .call = listings_cut_to_two_bytes},
    {"lines_ended_by_cr", .is_seen = true, .call = lines_ended_by_cr},
    {"lines_ended_by_138", .is_seen = true, .call = lines_ended_by_138},
    {.name = NULL},
};
