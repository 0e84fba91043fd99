// The known differences between the format and libtss2-mu, and what it has nothing for, a rule each.
#ifndef RULES_H
#define RULES_H

#include "layouts.h"

// It reads on where the format refuses; it refuses where the format reads; or it has no structure to be asked with.
enum way { READS_ON, REFUSES, NOT_ASKED };

struct rule {
    const char *name;
    const char *reason;
    // Whether libtss2-mu goes another way at this field, or is not asked, given its code, number, length, count or, at a
    // union, its selector.
    bool (*parts_at)(const struct field *field, uint64_t value);
    enum way way;
    const struct field *arm; // at a union where it reads on: the fields that it reads there
};

enum { NO_RULE = -1 };

extern const struct rule rules[];
extern const int rule_count;

// The rule that speaks at this field, other than the one left out; NO_RULE if none does.
int rule_at(const struct field *field, uint64_t value, int left_out);

#endif
