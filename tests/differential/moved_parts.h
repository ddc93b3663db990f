/* The laws of a moved part, of the candidates' parts. */
#ifndef MOVED_PARTS_H
#define MOVED_PARTS_H

#include "lists.h"
#include "run.h"

/* Raised by every amount, this list has as many candidates, each with its root and its bass raised
   and the same set. */
void expect_parts_to_move(struct run *run, const struct list *list);

#endif
