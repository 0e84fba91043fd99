#include "walk.h"

#include <inttypes.h>

static bool walk_row(struct walk *walk, const struct field *row);

// How many bytes the record has from a place on: past its end none.
static size_t bytes_from(const struct input *input, size_t place)
{
    return place < input->size ? input->size - place : 0;
}

static bool refuse(struct walk *walk, unsigned number, uint64_t value)
{
    walk->number = number;
    walk->place = walk->at;
    walk->value = value;
    walk->had = number == SHORT ? bytes_from(walk->input, walk->place) : 0;
    return false;
}

static bool is_there(struct walk *walk, size_t size)
{
    return bytes_from(walk->input, walk->at) >= size || refuse(walk, SHORT, size);
}

static uint64_t number_here(const struct walk *walk, size_t width)
{
    uint64_t number = 0;
    for (size_t i = 0; i < width; i++)
        number = number << 8 | walk->input->bytes[walk->at + i];
    return number;
}

static bool pass_number(struct walk *walk, size_t width, const char *word)
{
    if (walk->lines != NULL)
        text_add(walk->lines, "%zu %zu %s %" PRIu64 "\n", walk->at, width, word, number_here(walk, width));
    walk->at += width;
    return true;
}

static bool pass_bytes(struct walk *walk, size_t size)
{
    if (!is_there(walk, size))
        return false;
    if (walk->lines != NULL) {
        text_add(walk->lines, "%zu %zu bytes ", walk->at, size);
        text_add_hex(walk->lines, walk->input->bytes + walk->at, size);
        text_add(walk->lines, "\n");
    }
    walk->at += size;
    return true;
}

static const struct rule *rule_met(struct walk *walk, const struct field *field, uint64_t value)
{
    int rule = walk->by_rules ? rule_at(field, value, walk->left_out) : NO_RULE;
    if (rule == NO_RULE)
        return NULL;
    if (walk->first_rule == NO_RULE)
        walk->first_rule = rule;
    return &rules[rule];
}

// Whether the walk takes a value that the format takes or does not.
static bool is_taken(struct walk *walk, const struct field *field, uint64_t value, bool in_the_format)
{
    const struct rule *rule = rule_met(walk, field, value);
    return rule != NULL ? rule->way == READS_ON : in_the_format;
}

static bool walk_number(struct walk *walk, const struct field *field)
{
    return is_there(walk, (size_t)field->of) && pass_number(walk, (size_t)field->of, "number");
}

static bool walk_code(struct walk *walk, const struct field *field, unsigned *selector)
{
    enum role role = (enum role)field->of;
    size_t width = code_width(role);
    if (!is_there(walk, width))
        return false;
    unsigned code = (unsigned)number_here(walk, width);
    if (!is_taken(walk, field, code, listed(role, code)))
        return refuse(walk, UNKNOWN_CODE, code);
    if (chooses_an_arm(role))
        *selector = code;
    return pass_number(walk, width, "code");
}

static bool is_good(const struct field *field, uint64_t value)
{
    switch (field->what) {
    case MAGIC:
        return value == MAGIC_NUMBER;
    case TAG:
        return is_tag((enum ticket)field->of, (unsigned)value);
    default:
        return value <= 1;
    }
}

// A yes/no byte, the magic or a ticket's tag.
static bool walk_value(struct walk *walk, const struct field *field, size_t width)
{
    if (!is_there(walk, width))
        return false;
    uint64_t value = number_here(walk, width);
    return is_taken(walk, field, value, is_good(field, value)) ? pass_number(walk, width, "number")
                                                               : refuse(walk, BAD_VALUE, value);
}

static bool walk_buffer(struct walk *walk, const struct field *field)
{
    enum buffer buffer = (enum buffer)field->of;
    size_t width = length_width(buffer);
    if (!is_there(walk, width))
        return false;
    size_t length = number_here(walk, width);
    if (!is_taken(walk, field, length, length <= limit_of(buffer)))
        return refuse(walk, TOO_LONG, length);
    return pass_number(walk, width, "number") && pass_bytes(walk, length);
}

static bool walk_items(struct walk *walk, const struct field *field)
{
    if (!is_there(walk, 4))
        return false;
    uint64_t count = number_here(walk, 4);
    if (!is_taken(walk, field, count, count <= (uint64_t)field->of))
        return refuse(walk, TOO_MANY_ITEMS, count);
    pass_number(walk, 4, "number");
    for (uint64_t i = 0; i < count; i++)
        if (!walk_row(walk, field->part))
            return false;
    return true;
}

static bool walk_union(struct walk *walk, const struct field *field, unsigned selector)
{
    const struct rule *rule = rule_met(walk, field, selector);
    const struct field *arm = rule != NULL ? rule->arm : arm_for(field->arms, selector);
    return arm != NULL ? walk_row(walk, arm) : refuse(walk, NO_ARM, selector);
}

static bool walk_field(struct walk *walk, const struct field *field, unsigned *selector)
{
    switch (field->what) {
    case NUMBER:
        return walk_number(walk, field);
    case CODE:
        return walk_code(walk, field, selector);
    case YES_NO:
        return walk_value(walk, field, 1);
    case MAGIC:
        return walk_value(walk, field, 4);
    case TAG:
        return walk_value(walk, field, 2);
    case BUFFER:
        return walk_buffer(walk, field);
    case PLAIN:
        return pass_bytes(walk, (size_t)field->of);
    case ITEMS:
        return walk_items(walk, field);
    case PART:
        return walk_row(walk, field->part);
    case UNION:
        return walk_union(walk, field, *selector);
    default:
        return true;
    }
}

static bool walk_row(struct walk *walk, const struct field *row)
{
    unsigned selector = 0;
    for (; row->what != END; row++)
        if (!walk_field(walk, row, &selector))
            return false;
    return true;
}

void walk_format(struct walk *walk, const struct input *input, struct text *lines)
{
    *walk = (struct walk) {.input = input, .left_out = NO_RULE, .first_rule = NO_RULE, .lines = lines};
    walk->read = walk_row(walk, layout_of(input->kind));
}

void walk_rules(struct walk *walk, const struct input *input, int left_out)
{
    *walk = (struct walk) {.input = input, .by_rules = true, .left_out = left_out, .first_rule = NO_RULE};
    walk->read = walk_row(walk, layout_of(input->kind));
}
