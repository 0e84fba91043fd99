#include "random.h"

static uint64_t mixed(uint64_t x)
{
    x = (x ^ (x >> 30)) * 0xBF58476D1CE4E5B9u;
    x = (x ^ (x >> 27)) * 0x94D049BB133111EBu;
    return x ^ (x >> 31);
}

struct random random_row(uint64_t seed, uint64_t index)
{
    return (struct random) {mixed(mixed(seed) + index)};
}

uint64_t random_number(struct random *random)
{
    random->state += 0x9E3779B97F4A7C15u;
    return mixed(random->state);
}

size_t random_below(struct random *random, size_t bound)
{
    return bound == 0 ? 0 : random_number(random) % bound;
}

size_t random_between(struct random *random, size_t from, size_t to)
{
    return from + random_below(random, to - from + 1);
}

bool one_in(struct random *random, size_t count)
{
    return random_below(random, count) == 0;
}

void random_bytes(struct random *random, uint8_t *bytes, size_t size)
{
    for (size_t i = 0; i < size; i++)
        bytes[i] = (uint8_t)random_number(random);
}
