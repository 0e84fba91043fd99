// An input walked along its layout: what the format says of it, or, with the rules, what libtss2-mu is to make of it.
#ifndef WALK_H
#define WALK_H

#include "input.h"
#include "rules.h"
#include "text.h"

// The refusals that a reader can give, by their numbers.
enum { SHORT = 1, UNKNOWN_CODE, NO_ARM, TOO_LONG, TOO_MANY_ITEMS, BAD_VALUE };

struct walk {
    const struct input *input;
    bool by_rules;
    int left_out; // a rule that is not applied, or NO_RULE
    int first_rule; // the rule at which the walk left the format's way, or libtss2-mu is not asked; or NO_RULE
    bool read;
    size_t at; // where the walk stands; the bytes consumed once it has ended well
    unsigned number; // of the refusal, with its place and value
    size_t place;
    uint64_t value;
    size_t had; // behind SHORT the bytes from its place on; else 0
    struct text *lines; // a line for each field; NULL when they are not wanted
};

// As the format reads it, with the listing's lines of its fields.
void walk_format(struct walk *walk, const struct input *input, struct text *lines);
void walk_rules(struct walk *walk, const struct input *input, int left_out);

#endif
