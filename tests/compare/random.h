// Numbers that look random and follow from the seed alone (SplitMix64).
#ifndef RANDOM_H
#define RANDOM_H

#include <stdbool.h>
#include <stddef.h>
#include <stdint.h>

struct random {
    uint64_t state;
};

// Each input has a row of its own, so that it can be made again without those before it.
struct random random_row(uint64_t seed, uint64_t index);
uint64_t random_number(struct random *random);
size_t random_below(struct random *random, size_t bound); // 0 for bound 0
size_t random_between(struct random *random, size_t from, size_t to);
bool one_in(struct random *random, size_t count);
void random_bytes(struct random *random, uint8_t *bytes, size_t size);

#endif
