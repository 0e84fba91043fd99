#include "judge.h"

#include "reference.h"
#include "walk.h"

#include <stdio.h>
#include <string.h>

// What the refusal had is said of Short alone, 0 as well.
static void text_add_refusal(struct text *text, const struct walk *walk)
{
    text_add(text, "refused %u at %zu value %llu", walk->number, walk->place, (unsigned long long)walk->value);
    if (walk->number == SHORT)
        text_add(text, " had %zu", walk->had);
    text_add(text, "\n");
}

// The whole answer that the format gives, as our program prints it.
static void expected_listing(const struct input *input, struct text *text)
{
    static struct text lines;
    struct walk walk;
    text_clear(text);
    text_clear(&lines);
    walk_format(&walk, input, &lines);
    text_add(text, "kind %d ", input->kind);
    if (!walk.read) {
        text_add_refusal(text, &walk);
        return;
    }
    text_add(text, "read %zu tail %zu\n%sagain ", walk.at, input->size - walk.at, lines.chars);
    text_add_hex(text, input->bytes, walk.at);
    text_add(text, "\n");
}

// What libtss2-mu is to answer, by the layouts and the rules. It gives back the bytes that it read.
static int expected_reply(const struct input *input, int left_out, struct reply *reply)
{
    struct walk walk;
    walk_rules(&walk, input, left_out);
    reply->read = walk.read;
    reply->consumed = reply->again_size = walk.read ? walk.at : 0;
    memcpy(reply->again, input->bytes, reply->again_size);
    return walk.first_rule;
}

static bool is_text(struct listing listing, const struct text *text)
{
    return listing.size == text->size && memcmp(listing.chars, text->chars, text->size) == 0;
}

static struct judgement unexplained(const char *why)
{
    return (struct judgement) {UNEXPLAINED, NO_RULE, why};
}

static bool is_asked(int rule)
{
    return rule == NO_RULE || rules[rule].way != NOT_ASKED;
}

// Our answer beside libtss2-mu's.
static struct judgement compared(const struct input *input, const struct reply *ours, int left_out)
{
    static struct reply theirs, expected;
    int rule = expected_reply(input, left_out, &expected);
    if (!is_asked(rule))
        return (struct judgement) {NOT_COMPARED, rule, NULL};
    if (!reference_reply(input, &theirs))
        return unexplained("libtss2-mu's two functions for this kind answer differently");
    bool alike = replies_alike(ours, &theirs);
    if (!alike && rule == NO_RULE)
        return unexplained("the answers differ, and no rule speaks");
    if (!replies_alike(&theirs, &expected))
        return unexplained("libtss2-mu answers otherwise than the layouts and the rules say");
    if (!alike)
        return (struct judgement) {BY_A_RULE, rule, NULL};
    return (struct judgement) {ours->read ? BOTH_READ : BOTH_REFUSE, NO_RULE, NULL};
}

struct judgement judge(const struct input *input, struct listing listing, int left_out)
{
    static struct reply ours;
    static struct text text;
    if (!reply_of_listing(listing, &ours))
        return unexplained("our answer has not the form of a listing");
    struct judgement judgement = compared(input, &ours, left_out);
    expected_listing(input, &text);
    if (judgement.verdict != UNEXPLAINED && !is_text(listing, &text))
        return unexplained("our answer is not the listing that the layouts give");
    return judgement;
}

void print_unexplained(const struct input *input, struct listing listing, const char *why)
{
    static struct reply theirs, expected;
    static struct text text;
    text_clear(&text);
    text_add(&text, "UNEXPLAINED: %s\nkind %d (%s), input ", why, input->kind, reference_name(input->kind));
    text_add_hex(&text, input->bytes, input->size);
    text_add(&text, "\nlibtss2-mu: ");
    int rule = expected_reply(input, NO_RULE, &expected);
    if (is_asked(rule)) {
        reference_reply(input, &theirs);
        text_add_reply(&text, &theirs);
        text_add(&text, "by the rules (%s) it should be: ", rule == NO_RULE ? "none met" : rules[rule].name);
        text_add_reply(&text, &expected);
    } else {
        text_add(&text, "not asked (%s)\n", rules[rule].name);
    }
    printf("%sours:\n%.*s", text.chars, (int)listing.size, listing.chars);
    expected_listing(input, &text);
    printf("by the layouts it should be:\n%s\n", text.chars);
}
