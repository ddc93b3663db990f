/* The laws of a moved part, of the lines that the four calls write. */
#ifndef MOVED_LINES_H
#define MOVED_LINES_H

#include "lists.h"
#include "run.h"

/* Raised by every amount that a call takes, this list has as many lines, each with its names raised
   and the same suffix; by octaves the same bytes; and so has another list with its classes, drawn
   from this state. */
void expect_lines_to_move(struct run *run, const struct list *list, uint64_t state);

#endif
