// An input begins as a record made along its layout, a sample, or plain random bytes; then it may be damaged, cut and
// lengthened.
#include "make.h"

#include "random.h"
#include "record.h"
#include "samples.h"

#include <string.h>

static void make_random_bytes(struct input *input, struct random *random)
{
    input->size = random_below(random, one_in(random, 4) ? 600 : 24);
    random_bytes(random, input->bytes, input->size);
    for (size_t i = 0; i + 1 < input->size && one_in(random, 2); i += 2) { // small codes and lengths lead further in
        input->bytes[i] = 0;
        input->bytes[i + 1] %= 0x48;
    }
}

// The same record is made twice: good, to count its fields, and with one of them faulty.
static void make_one_fault(struct input *input, struct random *random, struct style style)
{
    struct random start = *random;
    size_t fields = make_record(input, random, style);
    style.at = random_between(random, 1, fields);
    make_record(input, &start, style);
}

static void make_beginning(struct input *input, struct random *random)
{
    struct style style = {.one_in = NO_FAULT, .at = NO_FAULT, .by_rules = one_in(random, 2)};
    size_t which = random_below(random, 16);
    if (which == 0) {
        make_random_bytes(input, random);
    } else if (which <= 2) {
        take_sample(input, random);
    } else if (which <= 6) {
        make_one_fault(input, random, style);
    } else {
        style.one_in = which == 7 ? random_between(random, 3, 24) : NO_FAULT;
        make_record(input, random, style);
    }
}

static void cut(struct input *input, struct random *random)
{
    input->size = one_in(random, 4) && input->size > 0 ? input->size - 1 : random_below(random, input->size + 1);
}

static void add_tail(struct input *input, struct random *random)
{
    size_t room = LARGEST_INPUT - input->size;
    size_t most = one_in(random, 100) ? room : one_in(random, 4) ? 300 : 8;
    size_t size = random_below(random, (most < room ? most : room) + 1);
    random_bytes(random, input->bytes + input->size, size);
    input->size += size;
}

static void change_a_byte(struct input *input, struct random *random, size_t reach)
{
    uint8_t *byte = &input->bytes[random_below(random, reach)];
    *byte = (uint8_t)(one_in(random, 2) ? *byte ^ 1u << random_below(random, 8) : random_number(random));
}

static void drop_a_byte(struct input *input, struct random *random, size_t reach)
{
    size_t at = random_below(random, reach);
    input->size--;
    memmove(input->bytes + at, input->bytes + at + 1, input->size - at);
}

static void put_a_code(struct input *input, struct random *random, size_t reach)
{
    size_t at = random_below(random, reach - 1);
    input->bytes[at] = 0;
    input->bytes[at + 1] = (uint8_t)random_below(random, 0x48);
}

// Half of it in the first 48 bytes, where most codes and lengths are.
static void damage(struct input *input, struct random *random)
{
    size_t times = one_in(random, 2) ? 1 : random_between(random, 2, 5);
    size_t reach = one_in(random, 2) ? 48 : LARGEST_INPUT;
    for (size_t i = 0; i < times && input->size > 1; i++) {
        size_t within = reach < input->size ? reach : input->size, which = random_below(random, 8);
        if (which == 0)
            drop_a_byte(input, random, within);
        else if (which < 3)
            put_a_code(input, random, within);
        else
            change_a_byte(input, random, within);
    }
}

// The kinds in turn; those with more fields come more often.
static int kind_of(uint64_t index)
{
    static const int turn[] = {
        1, 2, 3, 4, 5, 6, 7, 8, 9, 10, 11, 12, 13, 14, 15, 16, 17, 18, 19, 20, 9, 10, 11, 12, 13, 14, 15, 16, 11, 13, 15,
        11, 13, 15};
    return turn[index % (sizeof turn / sizeof *turn)];
}

void make_input(struct input *input, uint64_t seed, uint64_t index)
{
    struct random random = random_row(seed, index);
    input->kind = kind_of(index);
    make_beginning(input, &random);
    if (one_in(&random, 4))
        damage(input, &random);
    if (one_in(&random, 6))
        cut(input, &random);
    if (one_in(&random, 4))
        add_tail(input, &random);
}
