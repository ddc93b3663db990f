/* Lists made of a list: the laws of a moved part say what their candidates are. */
#ifndef RAISED_LISTS_H
#define RAISED_LISTS_H

#include "lists.h"

/* 0 where there is none. */
unsigned highest_code(const struct list *list);

/* Each code raised by this amount. */
struct list raised_list(const struct list *list, unsigned amount);

/* Another list, of codes up to this one, with the same classes in the same order of first
   occurrence. */
struct list list_with_same_classes(const struct list *list, unsigned last, uint64_t *state);

#endif
