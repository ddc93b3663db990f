/* Calls of the library that touch memory they were not lent: a fault ends the call alone. */
#ifndef FAULT_H
#define FAULT_H

#include <stdbool.h>

#include "functions.h"

/* Makes the call; false when it faulted, and then there is no answer in `got`. */
bool called_without_fault(const struct call *call, uint8_t *out, int64_t *got);

#endif
