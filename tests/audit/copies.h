// Runs a call one instruction at a time without the trap flag: each instruction is copied once, and runs between a load and a save of all
// registers. Some twenty times as fast as step_through, which must have made a call of the trace before, and with which it must agree.
#ifndef COPIES_H
#define COPIES_H

#include "step.h"

#include <stdbool.h>

// It cannot judge a call either that comes to an instruction which cannot be copied.
runner run_copies;

// Whether a call noted the same twice, the second time from this change on; takes the second time out of the trace.
bool noted_again(struct trace *trace, size_t second);

#endif
