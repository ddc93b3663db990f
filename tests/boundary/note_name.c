#include "note_name.h"

#include <string.h>

static char *put_signs(char *to, char sign, int count)
{
    memset(to, sign, (size_t)count);
    return to + count;
}

/* Flats one by one; of sharps the odd one first, and the others in pairs. */
char *put_note_name(char *to, char letter, int count)
{
    *to++ = letter;
    if (count < 0)
        return put_signs(to, 'b', -count);
    return put_signs(put_signs(to, '#', count % 2), 'x', count / 2);
}
