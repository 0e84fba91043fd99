#include "record.h"

#include "rules.h"

// libtss2-mu takes no list of more than 508.
enum { COUNTS_TRIED = 512 };

struct maker {
    struct input *input;
    struct random *random;
    struct style style;
    size_t asked; // how many fields could be faulty so far
    bool may_part; // by choosing a selector or a count at which the two sides part
};

static void make_row(struct maker *maker, const struct field *row);

// Asked once for each field that can be faulty.
static bool is_fault_due(struct maker *maker)
{
    maker->asked++;
    return maker->asked == maker->style.at
        || (maker->style.one_in != NO_FAULT && one_in(maker->random, maker->style.one_in));
}

static void put_number(struct maker *maker, uint64_t number, size_t width)
{
    struct input *input = maker->input;
    for (size_t i = width; i-- > 0 && input->size < LARGEST_INPUT;)
        input->bytes[input->size++] = (uint8_t)(number >> (8 * i));
}

static void put_bytes(struct maker *maker, size_t size)
{
    struct input *input = maker->input;
    size_t room = LARGEST_INPUT - input->size, there = size < room ? size : room;
    random_bytes(maker->random, input->bytes + input->size, there);
    input->size += there;
}

// Where the codes of a list begin; but for attestation types, none goes on for more than 44.
static unsigned first_code(enum role role)
{
    return role == HIERARCHY ? 0x40000000 : 0;
}

static unsigned listed_code(struct maker *maker, enum role role)
{
    unsigned code;
    do
        code = first_code(role) + (unsigned)random_below(maker->random, 0x45);
    while (!listed(role, code));
    return code;
}

// Near the lists, or anywhere.
static unsigned any_code(struct maker *maker)
{
    switch (random_below(maker->random, 4)) {
    case 0:
        return (unsigned)random_below(maker->random, 0x10000);
    case 1:
        return 0x8010 + (unsigned)random_below(maker->random, 0x20);
    default:
        return (unsigned)random_below(maker->random, 0x50);
    }
}

// Of 1 or 4 bytes: listed, also without an arm; near the list; a listed one with a bit changed; or anywhere.
static unsigned any_code_of(struct maker *maker, enum role role)
{
    size_t bits = 8 * code_width(role);
    switch (random_below(maker->random, 4)) {
    case 0:
        return (unsigned)random_below(maker->random, (size_t)1 << bits);
    case 1:
        return listed_code(maker, role) ^ 1u << random_below(maker->random, bits);
    default:
        return first_code(role) + (unsigned)random_below(maker->random, 0x14);
    }
}

static unsigned faulty_code(struct maker *maker, enum role role)
{
    if (code_width(role) != 2)
        return any_code_of(maker, role);
    return chooses_an_arm(role) && one_in(maker->random, 2) ? listed_code(maker, SELECTOR) : any_code(maker);
}

// The union that a selector of this row chooses for.
static const struct field *union_behind(const struct field *field)
{
    while (field->what != UNION)
        field++;
    return field;
}

static bool parts_at(const struct field *field, uint64_t value)
{
    return rule_at(field, value, NO_RULE) != NO_RULE;
}

// Among the selectors and counts of a record by the rules the two sides part at one at most: fifteen policies of which one
// has a digest that libtss2-mu lacks would be refused there for either, and show neither.
static bool is_kept(const struct maker *maker, const struct field *field, uint64_t value)
{
    return !maker->style.by_rules || !parts_at(field, value);
}

// A value below the bound at which the two sides part; false if there is none, or none is wanted here.
static bool parting_value(struct maker *maker, const struct field *field, size_t bound, size_t *value)
{
    if (!maker->may_part || one_in(maker->random, 2))
        return false;
    size_t start = random_below(maker->random, bound);
    for (size_t i = 0; i < bound; i++) {
        *value = (start + i) % bound;
        if (parts_at(field, *value)) {
            maker->may_part = false;
            return true;
        }
    }
    return false;
}

static unsigned selector_with_arm(struct maker *maker, const struct field *chosen)
{
    size_t count = 0, selector;
    while (chosen->arms[count].fields != NULL)
        count++;
    do
        selector = chosen->arms[random_below(maker->random, count)].selector;
    while (!is_kept(maker, chosen, selector));
    return (unsigned)selector;
}

static unsigned good_selector(struct maker *maker, const struct field *chosen)
{
    size_t selector;
    return parting_value(maker, chosen, 0x45, &selector) ? (unsigned)selector : selector_with_arm(maker, chosen);
}

static unsigned make_code(struct maker *maker, const struct field *field)
{
    enum role role = (enum role)field->of;
    unsigned code;
    if (is_fault_due(maker))
        code = faulty_code(maker, role);
    else if (chooses_an_arm(role))
        code = good_selector(maker, union_behind(field));
    else
        code = listed_code(maker, role);
    put_number(maker, code, code_width(role));
    return code;
}

static void make_value(struct maker *maker, uint64_t good, uint64_t bad, size_t width)
{
    put_number(maker, is_fault_due(maker) ? bad : good, width);
}

// C leaves open which argument of a call comes first, and the input has to follow from the seed.
static void make_yes_no(struct maker *maker)
{
    uint64_t good = random_below(maker->random, 2);
    uint64_t bad = random_below(maker->random, 256);
    make_value(maker, good, bad, 1);
}

// Another tag is one of another ticket's, one near them, or anything.
static void make_tag(struct maker *maker, enum ticket ticket)
{
    uint64_t good, bad;
    do
        good = random_between(maker->random, 0x8021, 0x8025);
    while (!is_tag(ticket, (unsigned)good));
    bad = one_in(maker->random, 4) ? random_below(maker->random, 0x10000) : random_between(maker->random, 0x8020, 0x8028);
    make_value(maker, good, bad, 2);
}

// At or past the limit, or at a limit of another buffer.
static size_t faulty_length(struct maker *maker, size_t limit)
{
    static const size_t lengths[] = {
        0, 1, 4, 5, 20, 31, 32, 33, 34, 48, 63, 64, 65, 66, 67, 68, 69, 80, 127, 128, 129, 130, 255, 256, 257, 258,
        511, 512, 513, 514, 2047, 2048, 2049, 2050, 65535};
    switch (random_below(maker->random, 3)) {
    case 0:
        return random_between(maker->random, limit, limit + 3);
    case 1:
        return random_between(maker->random, limit, 2 * limit + 1);
    default:
        return lengths[random_below(maker->random, sizeof lengths / sizeof *lengths)];
    }
}

static size_t length_within(struct maker *maker, size_t limit)
{
    switch (random_below(maker->random, 6)) {
    case 0:
        return limit;
    case 1:
        return 0;
    case 2:
        return random_below(maker->random, limit + 1);
    default:
        return random_below(maker->random, (limit < 32 ? limit : 32) + 1);
    }
}

static void make_buffer(struct maker *maker, const struct field *field)
{
    enum buffer buffer = (enum buffer)field->of;
    size_t limit = limit_of(buffer);
    size_t length = is_fault_due(maker) ? faulty_length(maker, limit) : length_within(maker, limit);
    put_number(maker, length, length_width(buffer));
    put_bytes(maker, length);
}

static size_t count_within(struct maker *maker, size_t most)
{
    switch (random_below(maker->random, 8)) {
    case 0:
        return random_between(maker->random, most - 2, most);
    case 1:
        return random_below(maker->random, most + 1);
    default:
        return random_below(maker->random, 4);
    }
}

static size_t good_count(struct maker *maker, const struct field *field)
{
    size_t count;
    if (parting_value(maker, field, COUNTS_TRIED, &count))
        return count;
    do
        count = count_within(maker, (size_t)field->of);
    while (!is_kept(maker, field, count));
    return count;
}

// About the limit, past it, about a limit of another list or of libtss2-mu, or anything.
static size_t faulty_count(struct maker *maker, size_t most)
{
    static const size_t counts[] = {14, 15, 16, 17, 84, 85, 127, 128, 129, 254, 255, 256, 257, 508, 509};
    switch (random_below(maker->random, 4)) {
    case 0:
        return random_between(maker->random, most - 1, most + 2);
    case 1:
        return random_between(maker->random, most, 2 * most + 1);
    case 2:
        return counts[random_below(maker->random, sizeof counts / sizeof *counts)];
    default:
        return random_below(maker->random, (size_t)1 << 32);
    }
}

// Of a count that neither side takes a few items more than the limit are made.
static void make_items(struct maker *maker, const struct field *field)
{
    size_t most = (size_t)field->of, count = is_fault_due(maker) ? faulty_count(maker, most) : good_count(maker, field);
    size_t made = count <= COUNTS_TRIED ? count : most + 2;
    put_number(maker, count, 4);
    for (size_t i = 0; i < made; i++)
        make_row(maker, field->part);
}

static void make_union(struct maker *maker, const struct field *field, unsigned selector)
{
    const struct field *arm = arm_for(field->arms, selector);
    int rule = maker->style.by_rules ? rule_at(field, selector, NO_RULE) : NO_RULE;
    if (rule != NO_RULE && rules[rule].way == READS_ON)
        arm = rules[rule].arm;
    if (arm != NULL)
        make_row(maker, arm);
    else
        put_bytes(maker, random_below(maker->random, 8));
}

static void make_field(struct maker *maker, const struct field *field, unsigned selector)
{
    switch (field->what) {
    case YES_NO:
        make_yes_no(maker);
        break;
    case MAGIC:
        make_value(maker, MAGIC_NUMBER, random_number(maker->random), 4);
        break;
    case TAG:
        make_tag(maker, (enum ticket)field->of);
        break;
    case BUFFER:
        make_buffer(maker, field);
        break;
    case ITEMS:
        make_items(maker, field);
        break;
    case PART:
        make_row(maker, field->part);
        break;
    case UNION:
        make_union(maker, field, selector);
        break;
    default: // numbers and plain digests
        put_bytes(maker, (size_t)field->of);
        break;
    }
}

static void make_row(struct maker *maker, const struct field *row)
{
    unsigned selector = 0;
    for (; row->what != END; row++) {
        if (row->what != CODE) {
            make_field(maker, row, selector);
            continue;
        }
        unsigned code = make_code(maker, row);
        if (chooses_an_arm((enum role)row->of))
            selector = code;
    }
}

size_t make_record(struct input *input, struct random *random, struct style style)
{
    struct maker maker = {input, random, style, 0, style.by_rules && one_in(random, 2)};
    input->size = 0;
    make_row(&maker, layout_of(input->kind));
    return maker.asked;
}
