/* What the oracle's lines mean as answers of the library. */
#ifndef ORACLE_LINES_H
#define ORACLE_LINES_H

#include <stddef.h>
#include <stdint.h>

int64_t number_in(const char *line);

/* `LETTER COUNT` as the library's number for that note. */
int64_t note_in(const char *line);

/* Bytes, a space between. */
struct bytes {
    size_t length;
    uint8_t bytes[128];
};

struct bytes bytes_in(const char *line);

/* Names of notes, a space between. */
struct names {
    size_t length;
    char text[128];
};

/* `LETTER COUNT` of each, a space between; the letter is a name's, and the signs are the rules'. */
struct names names_in(const char *line);

/* Candidates as the library writes them, each ended by LF. */
struct lines {
    int64_t count;
    size_t length;
    uint8_t text[1024];
};

/* Candidates with a tab between; an empty line holds none. */
struct lines lines_in(const char *line);

/* What each candidate is made of, as the library hands it back. */
struct parts {
    uint32_t count;
    int64_t packed[12];
};

/* `ROOT BASS SET` of each, a tab between; an empty line holds none. */
struct parts parts_in(const char *line);

#endif
