#define _GNU_SOURCE // memmem
#include "trial.h"

#include "random.h"

#include <stdio.h>
#include <stdlib.h>
#include <string.h>

enum { CHANGES = 100, FORMS = 20 };

static uint64_t unexplained_without(const struct batch *batch, int left_out)
{
    static struct tally tally;
    return judge_batch(batch, left_out, &tally, false);
}

static bool misses_each_rule(const struct batch *batch)
{
    for (int rule = 0; rule < rule_count; rule++) {
        if (unexplained_without(batch, rule) == 0) {
            printf("trial: nothing was reported without the rule %s\n", rules[rule].name);
            return false;
        }
    }
    return true;
}

// Behind the next such word from anywhere in our answers; with no word, anywhere.
static size_t place_behind(const struct answers *answers, const char *word, struct random *random)
{
    size_t start = random_below(random, answers->size);
    const char *found = memmem(answers->chars + start, answers->size - start, word, strlen(word));
    if (found == NULL) // the last one is passed
        found = memmem(answers->chars, answers->size, word, strlen(word));
    return found == NULL ? 0 : (size_t)(found - answers->chars) + strlen(word);
}

// A digit is changed to another digit, mostly. What was had is changed in its first digit: behind it is the next line. An
// NV area of type 11 is one that libtss2-mu is not asked about.
static bool sees_each_change(struct batch *batch, uint64_t seed)
{
    static const struct {
        const char *word;
        size_t reach;
    } spots[] = {{"", 20}, {"\nkind ", 20}, {"\nagain ", 20}, {" had ", 1}, {"\n0 1 code 17\n", 20}};
    const size_t spot_count = sizeof spots / sizeof *spots;
    struct random random = random_row(seed, UINT64_MAX);
    for (int i = 0; i < CHANGES; i++) {
        const char *word = spots[i % spot_count].word;
        size_t at = place_behind(&batch->answers, word, &random), left = batch->answers.size - at;
        if (at == 0 && *word != '\0') {
            printf("trial: our answers have no such word as '%s'\n", word);
            return false;
        }
        at += random_below(&random, left < spots[i % spot_count].reach ? left : spots[i % spot_count].reach);
        batch->answers.chars[at] ^= 1;
        uint64_t seen = unexplained_without(batch, NO_RULE);
        batch->answers.chars[at] ^= 1;
        if (seen == 0) {
            printf("trial: nothing was reported when byte %zu of our answers was changed\n", at);
            return false;
        }
    }
    return true;
}

// Our answers with so many bytes at a place replaced by a text.
static uint64_t unexplained_with(struct batch *batch, size_t at, size_t size, const char *text)
{
    struct answers whole = batch->answers, changed = {malloc(whole.size + strlen(text)), whole.size - size + strlen(text)};
    if (changed.chars == NULL) {
        fputs("compare: no memory for the trial\n", stderr);
        exit(2);
    }
    memcpy(changed.chars, whole.chars, at);
    memcpy(changed.chars + at, text, strlen(text));
    memcpy(changed.chars + at + strlen(text), whole.chars + at + size, whole.size - at - size);
    batch->answers = changed;
    uint64_t seen = unexplained_without(batch, NO_RULE);
    batch->answers = whole;
    free(changed.chars);
    return seen;
}

// A Short that does not say what it had, and other refusals that say it.
static bool sees_each_form(struct batch *batch, uint64_t seed)
{
    static const char *const others[] = {" refused 2 ", " refused 3 ", " refused 4 ", " refused 5 ", " refused 6 "};
    const struct answers *answers = &batch->answers;
    struct random random = random_row(seed, UINT64_MAX - 1);
    for (int i = 0; i < FORMS; i++) {
        bool is_short = i % 2 == 0;
        size_t at = place_behind(answers, is_short ? " had" : others[i / 2 % 5], &random);
        size_t end = line_end(answers, at) - 1, start = is_short ? at - strlen(" had") : end;
        if (at == 0 || unexplained_with(batch, start, end - start, is_short ? "" : " had 0") == 0) {
            printf("trial: nothing was reported when ' had' was %s at byte %zu of our answers\n",
                is_short ? "left out" : "put in", at);
            return false;
        }
    }
    return true;
}

int try_comparer(struct batch *batch, uint64_t seed, char *const command[])
{
    static struct tally tally;
    make_batch(batch, seed, 0, BATCH);
    if (!answer_batch(batch, command))
        return 2;
    if (judge_batch(batch, NO_RULE, &tally, true) != 0 || !misses_each_rule(batch) || !sees_each_change(batch, seed)
        || !sees_each_form(batch, seed))
        return 1;
    printf("trial with %d inputs: reported without each of %d rules, for each of %d changed bytes of our answers, and for "
           "each of %d refusals with ' had' left out or put in\n",
        BATCH, rule_count, CHANGES, FORMS);
    return 0;
}
