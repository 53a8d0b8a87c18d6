// The calls on scratch that is dirty, long or used: groups of plain_call_test.c.
#ifndef SCRATCH_H
#define SCRATCH_H

#include "trial.h"

// An accepted call with one byte of its scratch not zero, or all, and scratch longer than it needs.
void dirty_scratch(const struct trial *fine);

// Lengths that come into range when they are cut to 8 or 16 bits, and dirt at such places.
void long_buffers(void);

// Calls one after the other on one scratch, used and cleared.
void calls_in_a_row(void);

#endif
