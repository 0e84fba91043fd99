#include "batch.h"

#include "make.h"
#include "reference.h"

#include <stdio.h>

enum { MOST_PRINTED = 5 };

void make_batch(struct batch *batch, uint64_t seed, uint64_t first, size_t count)
{
    batch->first = first;
    batch->count = count;
    for (size_t i = 0; i < count; i++)
        make_input(&batch->inputs[i], seed, first + i);
}

bool answer_batch(struct batch *batch, char *const command[])
{
    return ask_ours(command, batch->inputs, batch->count, &batch->answers);
}

static void count_one(struct tally *tally, int kind, struct judgement judgement)
{
    struct kind_tally *counts = &tally->kinds[kind];
    counts->inputs++;
    counts->both_read += judgement.verdict == BOTH_READ;
    counts->both_refuse += judgement.verdict == BOTH_REFUSE;
    if (judgement.verdict == BY_A_RULE || judgement.verdict == NOT_COMPARED)
        counts->by_rule[judgement.rule]++;
    tally->unexplained += judgement.verdict == UNEXPLAINED;
}

uint64_t judge_batch(const struct batch *batch, int left_out, struct tally *tally, bool prints)
{
    size_t place = 0;
    uint64_t before = tally->unexplained;
    for (size_t i = 0; i < batch->count; i++) {
        struct listing listing = next_listing(&batch->answers, &place);
        struct judgement judgement = judge(&batch->inputs[i], listing, left_out);
        count_one(tally, batch->inputs[i].kind, judgement);
        if (judgement.verdict != UNEXPLAINED || !prints || tally->unexplained - before > MOST_PRINTED)
            continue;
        printf("\ninput number %llu: ", (unsigned long long)(batch->first + i));
        print_unexplained(&batch->inputs[i], listing, judgement.why);
    }
    if (place == batch->answers.size)
        return tally->unexplained - before;
    if (prints)
        printf("our program printed more than one listing for each input\n");
    return ++tally->unexplained - before;
}

static void add_kinds(const struct tally *tally, struct kind_tally *sum)
{
    for (int kind = 1; kind <= KINDS; kind++) {
        const struct kind_tally *counts = &tally->kinds[kind];
        sum->inputs += counts->inputs;
        sum->both_read += counts->both_read;
        sum->both_refuse += counts->both_refuse;
        for (int rule = 0; rule < rule_count; rule++)
            sum->by_rule[rule] += counts->by_rule[rule];
    }
}

// How many were counted under rules by which the two sides differ, or under those by which libtss2-mu is not asked.
static uint64_t by_rules(const struct kind_tally *counts, bool asked)
{
    uint64_t inputs = 0;
    for (int rule = 0; rule < rule_count; rule++)
        if ((rules[rule].way != NOT_ASKED) == asked)
            inputs += counts->by_rule[rule];
    return inputs;
}

static void print_counts(const char *what, const struct kind_tally *counts, bool with_reasons)
{
    printf("%s: %llu inputs, read alike by both %llu, refused by both %llu\n", what, (unsigned long long)counts->inputs,
        (unsigned long long)counts->both_read, (unsigned long long)counts->both_refuse);
    for (int rule = 0; rule < rule_count; rule++)
        if (counts->by_rule[rule] != 0 || with_reasons)
            printf("    %-26s %8llu  %s\n", rules[rule].name, (unsigned long long)counts->by_rule[rule],
                with_reasons ? rules[rule].reason : "");
}

void print_tally(const struct tally *tally, uint64_t different)
{
    char what[80];
    struct kind_tally sum = {0};
    add_kinds(tally, &sum);
    for (int kind = 1; kind <= KINDS; kind++) {
        snprintf(what, sizeof what, "kind %d, %s", kind, reference_name(kind));
        print_counts(what, &tally->kinds[kind], false);
    }
    print_counts("all kinds", &sum, true);
    printf("%llu inputs, of which %llu are different: alike %llu, differing by a rule %llu, not compared %llu, "
           "unexplained %llu\n",
        (unsigned long long)sum.inputs, (unsigned long long)different,
        (unsigned long long)(sum.both_read + sum.both_refuse), (unsigned long long)by_rules(&sum, true),
        (unsigned long long)by_rules(&sum, false), (unsigned long long)tally->unexplained);
}
