/* Harmony elements that are known by heart, and calls of harmony that are refused. */
#ifndef STATED_HARMONIES_H
#define STATED_HARMONIES_H

#include "run.h"

void stated_harmonies(struct run *run);

#endif
