// Our side: the program deposits, run on a file of many inputs.
#ifndef OURS_H
#define OURS_H

#include "reply.h"

struct answers {
    char *chars;
    size_t size;
};

// One input's lines, from its line 'kind' to the next input's.
struct listing {
    const char *chars;
    size_t size;
};

// Runs the command on the inputs and takes all that it prints. False, with a message, if that fails.
bool ask_ours(char *const command[], const struct input *inputs, size_t count, struct answers *answers);
// The place behind the line that a place is in.
size_t line_end(const struct answers *answers, size_t place);
// The listing at a place, which moves behind it; empty when nothing is left.
struct listing next_listing(const struct answers *answers, size_t *place);
// What the listing says; false if it has not the form of one.
bool reply_of_listing(struct listing listing, struct reply *reply);

#endif
