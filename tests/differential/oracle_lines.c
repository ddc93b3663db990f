#include "oracle_lines.h"

#include <stdlib.h>
#include <string.h>

#include "candidate_calls.h"
#include "length.h"
#include "note_name.h"
#include "notes.h"
#include "run.h"

static int64_t read_number(const char *line, const char *from, char end, const char **behind)
{
    char *stop;
    int64_t number = strtoll(from, &stop, 10);
    if (stop == from || *stop != end)
        fail("the oracle's line `%s` does not hold the numbers expected", line);
    *behind = stop + 1;
    return number;
}

int64_t number_in(const char *line)
{
    const char *behind;
    return read_number(line, line, '\0', &behind);
}

int64_t note_in(const char *line)
{
    const char *behind;
    int64_t letter = read_number(line, line, ' ', &behind);
    int64_t count = read_number(line, behind, '\0', &behind);
    return note_number((struct note){(uint32_t)letter, (int32_t)count});
}

struct bytes bytes_in(const char *line)
{
    struct bytes bytes = {.length = 0};
    const char *end = line + strlen(line);
    for (const char *from = line; from <= end;) {
        int64_t number = read_number(line, from, strchr(from, ' ') == NULL ? '\0' : ' ', &from);
        if (number < 0 || number > UINT8_MAX || bytes.length == sizeof bytes.bytes)
            fail("the oracle's line `%s` holds no bytes, or too many", line);
        bytes.bytes[bytes.length++] = (uint8_t)number;
    }
    return bytes;
}

struct names names_in(const char *line)
{
    struct names names = {.length = 0};
    char *to = names.text;
    const char *const room_end = to + sizeof names.text;
    const char *end = line + strlen(line);
    for (const char *from = line; from <= end;) {
        char letter = *from++;
        if (*from != ' ')
            fail("the oracle's line `%s` does not hold the notes expected", line);
        int64_t count = read_number(line, from, strchr(from + 1, ' ') == NULL ? '\0' : ' ', &from);
        if (count < -6 || count > 6 || to + HEMOTUSAP_NOTE_TEXT_ROOM >= room_end)
            fail("the oracle's line `%s` holds no notes, or too many", line);
        if (to != names.text)
            *to++ = ' ';
        to = put_note_name(to, letter, (int)count);
    }
    names.length = (size_t)(to - names.text);
    return names;
}

struct lines lines_in(const char *line)
{
    struct lines lines = {.length = strlen(line)};
    if (lines.length >= sizeof lines.text)
        fail("the oracle's line `%s` is longer than candidates can be", line);
    if (lines.length == 0)
        return lines;
    memcpy(lines.text, line, lines.length);
    lines.text[lines.length++] = '\t';
    for (size_t at = 0; at < lines.length; at++)
        if (lines.text[at] == '\t') {
            lines.text[at] = '\n';
            lines.count++;
        }
    return lines;
}

struct parts parts_in(const char *line)
{
    struct parts parts = {.count = 0};
    const char *end = line + strlen(line);
    for (const char *from = line; from < end;) {
        int64_t root = read_number(line, from, ' ', &from);
        int64_t bass = read_number(line, from, ' ', &from);
        int64_t set = read_number(line, from, strchr(from, '\t') == NULL ? '\0' : '\t', &from);
        if (parts.count == LENGTH(parts.packed))
            fail("the oracle's line `%s` has more candidates than there are classes", line);
        parts.packed[parts.count++] = packed_candidate(root, bass, set);
    }
    return parts;
}
