/* Faults of names of notes: other signs, and rooms held to the length of names with other signs. */
#include <stdio.h>
#include <string.h>

#include "own_faults.h"

static void put_for(char *text, const char *from, const char *sign)
{
    char given[HEMOTUSAP_TONES_ROOM + 1];
    snprintf(given, sizeof given, "%s", text);
    for (const char *at = given; *at != '\0';)
        if (strncmp(at, from, strlen(from)) == 0) {
            text += sprintf(text, "%s", sign);
            at += strlen(from);
        } else {
            *text++ = *at++;
        }
    *text = '\0';
}

/* As before request Q-10. */
static void put_each_sharp(char *text)
{
    put_for(text, "x", "##");
}

static void put_flats_by_pairs(char *text)
{
    put_for(text, "bb", "x");
}

static void put_the_odd_sharp_last(char *text)
{
    char *odd = strstr(text, "#x");
    if (odd == NULL)
        return;
    size_t pairs = strspn(odd + 1, "x");
    memset(odd, 'x', pairs);
    odd[pairs] = '#';
}

/* The names are right, but a room in which those of before would not fit is refused. */
static int64_t room_for_each_sharp(const struct call *call, uint8_t *out)
{
    uint8_t names[HEMOTUSAP_TONES_ROOM];
    struct call roomy = *call;
    roomy.room = sizeof names;
    int64_t before = __real_call_library(&roomy, names);
    for (int64_t at = 0, length = before; at < length; at++)
        before += names[at] == 'x';
    return before > call->room ? -HEMOTUSAP_NO_ROOM : __real_call_library(call, out);
}

const struct own_fault faults_of_signs[] = {
    {"each_sharp", .edit = put_each_sharp},
    {"flats_by_pairs", .edit = put_flats_by_pairs},
    {"room_for_each_sharp", .call = room_for_each_sharp},
    {.name = NULL},
};

/* No spelled tone has three sharps. */
const struct own_fault faults_of_odd_sharps[] = {
    {"odd_sharp_last", .edit = put_the_odd_sharp_last},
    {.name = NULL},
};
