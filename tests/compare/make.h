// The inputs: each follows from the seed, its own index and the samples.
#ifndef MAKE_H
#define MAKE_H

#include "input.h"

void make_input(struct input *input, uint64_t seed, uint64_t index);

#endif
