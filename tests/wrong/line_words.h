/* The words that candidate_line writes, and a call of it with another number. */
#ifndef LINE_WORDS_H
#define LINE_WORDS_H

#include "chosen_line.h"

uint64_t *words(uint8_t *out);

/* Whether this was answered and written where there is no such line. */
bool is_empty_part(const struct call *call, int64_t got, uint8_t *out);

int64_t with_number(const struct call *call, uint8_t *out, int64_t number);
int64_t with_fifths(const struct call *call, uint8_t *out, int64_t fifths);

#endif
