// Many inputs at a time, their answers, and the counts.
#ifndef BATCH_H
#define BATCH_H

#include "judge.h"

enum { BATCH = 24000, MOST_RULES = 64 };

struct batch {
    uint64_t first; // the index of its first input
    size_t count;
    struct input inputs[BATCH];
    struct answers answers;
};

struct kind_tally {
    uint64_t inputs, both_read, both_refuse, by_rule[MOST_RULES];
};

struct tally {
    struct kind_tally kinds[KINDS + 1];
    uint64_t unexplained;
};

void make_batch(struct batch *batch, uint64_t seed, uint64_t first, size_t count);
bool answer_batch(struct batch *batch, char *const command[]);
// Adds to the counts and answers how many are unexplained; prints the first few of them if it is to.
uint64_t judge_batch(const struct batch *batch, int left_out, struct tally *tally, bool prints);
void print_tally(const struct tally *tally, uint64_t different);

#endif
