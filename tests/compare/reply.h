// What is compared of an answer: acceptance, the bytes consumed, and the bytes written for what was read.
#ifndef REPLY_H
#define REPLY_H

#include "input.h"
#include "text.h"

struct reply {
    bool read;
    size_t consumed;
    size_t again_size;
    uint8_t again[LARGEST_INPUT];
};

bool replies_alike(const struct reply *one, const struct reply *other);
void text_add_reply(struct text *text, const struct reply *reply);

#endif
