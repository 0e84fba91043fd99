// Of each input a mark of 64 bits is kept. Two inputs with the same mark would be counted as one; in a million that is not
// to be expected.
#include "different.h"

#include <stdio.h>
#include <stdlib.h>

static uint64_t *marks;
static size_t marks_count;

// FNV-1a, of the kind and then the bytes.
static uint64_t mark_of(const struct input *input)
{
    uint64_t mark = (0xCBF29CE484222325u ^ (uint64_t)input->kind) * 0x100000001B3u;
    for (size_t i = 0; i < input->size; i++)
        mark = (mark ^ input->bytes[i]) * 0x100000001B3u;
    return mark;
}

void note_inputs(const struct input *inputs, size_t count)
{
    marks = realloc(marks, (marks_count + count) * sizeof *marks);
    if (marks == NULL) {
        fputs("compare: no memory for the inputs' marks\n", stderr);
        exit(2);
    }
    for (size_t i = 0; i < count; i++)
        marks[marks_count++] = mark_of(&inputs[i]);
}

static int by_size(const void *one, const void *other)
{
    uint64_t a = *(const uint64_t *)one, b = *(const uint64_t *)other;
    return (a > b) - (a < b);
}

uint64_t different_inputs(void)
{
    uint64_t different = 0;
    qsort(marks, marks_count, sizeof *marks, by_size);
    for (size_t i = 0; i < marks_count; i++)
        different += i == 0 || marks[i] != marks[i - 1];
    return different;
}
