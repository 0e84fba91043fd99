// Our answer and libtss2-mu's to one input, held against each other.
#ifndef JUDGE_H
#define JUDGE_H

#include "ours.h"
#include "rules.h"

enum verdict { BOTH_READ, BOTH_REFUSE, BY_A_RULE, NOT_COMPARED, UNEXPLAINED };

struct judgement {
    enum verdict verdict;
    int rule; // the first that was met, for BY_A_RULE and NOT_COMPARED
    const char *why; // for UNEXPLAINED
};

// One rule can be left out, to see that it is missed.
struct judgement judge(const struct input *input, struct listing listing, int left_out);
// The input, both answers, and what was expected of them.
void print_unexplained(const struct input *input, struct listing listing, const char *why);

#endif
