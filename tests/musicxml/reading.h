/* What a harmony element says, by MusicXML's own rule. It shares nothing with what wrote it. */
#ifndef READING_H
#define READING_H

#include <stddef.h>
#include <stdint.h>

enum { NO_BASS_READ = 255 };

struct harmony {
    uint32_t root, bass; /* classes */
    uint32_t set;        /* the classes above the root, as bits */
};

/* NULL, or why it can't be read. */
const char *read_harmony(const uint8_t *text, size_t length, struct harmony *read);

#endif
