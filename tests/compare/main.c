// compare COUNT SEED SAMPLES COMMAND...: runs COUNT inputs through COMMAND and through libtss2-mu and compares the answers.
// Ends with 0 if nothing was left unexplained, 1 if something was, 2 if it could not run.
#include "batch.h"
#include "different.h"
#include "reference.h"
#include "samples.h"
#include "trial.h"

#include <stdio.h>
#include <stdlib.h>
#include <unistd.h>

static struct batch batch;
static struct tally tally;

static void show_progress(uint64_t done, uint64_t count)
{
    if (isatty(2))
        fprintf(stderr, "\r%llu of %llu%s", (unsigned long long)done, (unsigned long long)count, done == count ? "\n" : "");
}

static int run_all(uint64_t count, uint64_t seed, char *const command[])
{
    for (uint64_t first = 0; first < count; first += BATCH) {
        size_t size = count - first < BATCH ? (size_t)(count - first) : BATCH;
        make_batch(&batch, seed, first, size);
        note_inputs(batch.inputs, size);
        if (!answer_batch(&batch, command))
            return 2;
        if (judge_batch(&batch, NO_RULE, &tally, true) != 0)
            break;
        show_progress(first + size, count);
    }
    print_tally(&tally, different_inputs());
    return tally.unexplained == 0 ? 0 : 1;
}

int main(int argc, char *argv[])
{
    uint64_t count = argc < 5 ? 0 : strtoull(argv[1], NULL, 10), seed = argc < 5 ? 0 : strtoull(argv[2], NULL, 10);
    if (count == 0) {
        fputs("usage: compare COUNT SEED SAMPLES COMMAND..., with COUNT at least 1\n", stderr);
        return 2;
    }
    reference_start();
    if (!read_samples(argv[3])) {
        fprintf(stderr, "compare: %s is not a file of deposits\n", argv[3]);
        return 2;
    }
    int tried = try_comparer(&batch, seed, argv + 4);
    return tried != 0 ? tried : run_all(count, seed, argv + 4);
}
