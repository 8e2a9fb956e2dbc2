/* A stand-in for the proved handle: it answers what the fuzzer's bytes say. */
#ifndef FUZZER_STAND_IN_H
#define FUZZER_STAND_IN_H

#include "input.h"

/* Sets the source of its answers. */
void stand_in_answers(input *given);

/* How many of its sessions are open. */
int stand_in_open(void);

#endif
