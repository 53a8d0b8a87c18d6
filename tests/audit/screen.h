// The audit of a screen of random bytes.
#ifndef SCREEN_H
#define SCREEN_H

#include "subjects.h"

// Runs of several lengths without a fault. For each length the way through the code must be the same whatever the bytes are, where memory
// is touched may depend on one byte of the run at most, and each byte must be read once. Each byte more must take few instructions more. The
// result is one of those in frame.h.
int audit_screen(const struct screen *screen);

#endif
