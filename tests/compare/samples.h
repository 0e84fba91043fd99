// The deposits that the program is tested with, by kind (tests/vectors/README.md).
#ifndef SAMPLES_H
#define SAMPLES_H

#include "input.h"
#include "random.h"

// Reads the file of frames. False if it is not there or does not end with a frame.
bool read_samples(const char *path);
// One of the input's kind; without any the input is empty.
void take_sample(struct input *input, struct random *random);

#endif
