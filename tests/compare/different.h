// How many of the inputs are different: the short kinds repeat.
#ifndef DIFFERENT_H
#define DIFFERENT_H

#include "input.h"

void note_inputs(const struct input *inputs, size_t count);
uint64_t different_inputs(void); // of those noted

#endif
