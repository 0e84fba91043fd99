// Records made along a layout: legal ones, and ones with faults put in.
#ifndef RECORD_H
#define RECORD_H

#include "input.h"
#include "random.h"

enum { NO_FAULT = 0 };

struct style {
    size_t one_in; // of the fields that can, one in so many is made faulty; or NO_FAULT
    size_t at; // the field, counted from 1, that is made faulty; or NO_FAULT
    bool by_rules; // with no selector or count at which a rule speaks, or with one, and libtss2-mu's arm if it has one
};

// Answers how many of its fields could be faulty.
size_t make_record(struct input *input, struct random *random, struct style style);

#endif
