// What both sides are given: a kind and the bytes of a record, or of what is taken for one.
#ifndef INPUT_H
#define INPUT_H

#include "layouts.h"

struct input {
    int kind;
    size_t size;
    uint8_t bytes[LARGEST_INPUT];
};

#endif
