#include "samples.h"

#include <stdio.h>
#include <stdlib.h>
#include <string.h>

enum { MOST_SAMPLES = 4096, LARGEST_FRAME = 65535 };

struct samples {
    size_t count;
    struct input *inputs[MOST_SAMPLES];
};

static struct samples samples[KINDS + 1];

static struct input *copy_of(int kind, const uint8_t *bytes, size_t size)
{
    struct input *input = malloc(sizeof *input);
    if (input == NULL)
        exit(2);
    input->kind = kind;
    input->size = size;
    memcpy(input->bytes, bytes, size);
    return input;
}

// Frames that are no deposit of a known kind have nothing to compare with, and are passed over.
static void add_frame(const uint8_t *frame, size_t size)
{
    int kind = size > 0 ? frame[0] : 0;
    if (kind < 1 || kind > KINDS || size - 1 > LARGEST_INPUT || samples[kind].count == MOST_SAMPLES)
        return;
    samples[kind].inputs[samples[kind].count++] = copy_of(kind, frame + 1, size - 1);
}

bool read_samples(const char *path)
{
    static uint8_t frame[LARGEST_FRAME];
    int high, low;
    bool good = true;
    FILE *file = fopen(path, "r");
    if (file == NULL)
        return false;
    while (good && (high = getc(file)) != EOF) {
        low = getc(file);
        size_t size = low == EOF ? 0 : (size_t)(high << 8 | low);
        good = low != EOF && fread(frame, 1, size, file) == size;
        if (good)
            add_frame(frame, size);
    }
    fclose(file);
    return good;
}

void take_sample(struct input *input, struct random *random)
{
    const struct samples *of_kind = &samples[input->kind];
    input->size = 0;
    if (of_kind->count > 0)
        *input = *of_kind->inputs[random_below(random, of_kind->count)];
}
