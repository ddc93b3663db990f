/* Faults against the laws of a moved part, of the calls that write candidates and of
   candidate_count; parts.c has those of candidate. */
#include <string.h>

#include "lent_call.h"
#include "own_faults.h"

enum { CLASSES = 12, MIDDLE_C = 60 };

/* In the lines that are rooted on E or Eb. */
static void put_a_suffix_by_its_root(char *text)
{
    bool is_here = false;
    for (char before = '\n'; *text != '\0'; before = *text++) {
        if (before == '\n')
            is_here = *text == 'E';
        if (is_here && *text == '(')
            *text = '[';
    }
}

/* A bass ends its line. */
static void put_a_bass_of_c(char *text)
{
    char *to = text;
    for (; *text != '\0'; text++) {
        *to++ = *text;
        if (*text == '/') {
            *to++ = 'C';
            text += strcspn(text, "\n") - 1;
        }
    }
    *to = '\0';
}

static int64_t call_on(const struct call *call, uint8_t *out, const uint8_t *codes, size_t length)
{
    const struct range list = {codes, length};
    struct call other = *call;
    other.inputs = &list;
    return __real_call_library(&other, out);
}

static uint8_t made[MOST_LENT];

/* Each class as far below C as it is above, so that what is raised falls. */
static int64_t named_the_wrong_way(const struct call *call, uint8_t *out)
{
    struct range list = call->inputs[0];
    for (size_t at = 0; at < list.length; at++)
        made[at] = (uint8_t)((CLASSES - list.bytes[at] % CLASSES) % CLASSES);
    return call_on(call, out, made, list.length);
}

static bool is_above_middle_c(struct range list)
{
    return list.length > 0 && list.bytes[0] >= MIDDLE_C;
}

/* From the last code to the first, where that is middle C or higher. */
static int64_t turned_above_middle_c(const struct call *call, uint8_t *out)
{
    struct range list = call->inputs[0];
    if (!is_above_middle_c(list))
        return __real_call_library(call, out);
    for (size_t at = 0; at < list.length; at++)
        made[at] = list.bytes[list.length - 1 - at];
    return call_on(call, out, made, list.length);
}

static bool occurs(uint8_t code, const uint8_t *from, const uint8_t *to)
{
    while (from < to && *from % CLASSES != code % CLASSES)
        from++;
    return from < to;
}

/* The order is that of last occurrence. */
static int64_t by_last_occurrence(const struct call *call, uint8_t *out)
{
    struct range list = call->inputs[0];
    size_t length = 0;
    for (size_t at = 0; at < list.length; at++)
        if (!occurs(list.bytes[at], list.bytes + at + 1, list.bytes + list.length))
            made[length++] = list.bytes[at];
    return call_on(call, out, made, length);
}

static int64_t one_more_above_middle_c(const struct call *call)
{
    return __real_call_library(call, NULL) + is_above_middle_c(call->inputs[0]);
}

const struct own_fault faults_of_moved_lines[] = {
    {"a_suffix_by_its_root", .is_moved = true, .edit = put_a_suffix_by_its_root},
    {"bass_not_raised", .is_moved = true, .edit = put_a_bass_of_c},
    {"named_the_wrong_way", .is_moved = true, .call = named_the_wrong_way},
    {"turned_above_middle_c", .is_moved = true, .call = turned_above_middle_c},
    {"by_last_occurrence", .is_moved = true, .call = by_last_occurrence},
    {.name = NULL},
};

const struct own_fault faults_of_moved_counts[] = {
    {"one_more_above_middle_c", .is_moved = true, .answer = one_more_above_middle_c},
    {.name = NULL},
};
