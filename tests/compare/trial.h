// The comparer tried on itself: it has to report when a rule is missing or an answer of ours is changed.
#ifndef TRIAL_H
#define TRIAL_H

#include "batch.h"

// 0 if it reports all that it should; 1 if not, or if it reports something when nothing is changed; 2 if it cannot run.
int try_comparer(struct batch *batch, uint64_t seed, char *const command[]);

#endif
