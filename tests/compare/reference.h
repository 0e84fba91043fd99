// The other side: libtss2-mu of tpm2-tss.
#ifndef REFERENCE_H
#define REFERENCE_H

#include "reply.h"

// Keeps libtss2-mu from reporting each refusal on standard error.
void reference_start(void);

// What libtss2-mu makes of the input. False when its two functions for one kind do not agree.
bool reference_reply(const struct input *input, struct reply *reply);
const char *reference_name(int kind);

#endif
