// One comparison of the exported screen with the reference.
#ifndef SCREEN_TRIAL_H
#define SCREEN_TRIAL_H

#include "cippazhey.h"
#include "groups.h"
#include "numbers.h"
#include "runs.h"

#define NONE CIPPAZHEY_NO_FAULT

// Screens a run both ways, and counts whether both find the given start.
void expect(const uint8_t *run, size_t length, uint64_t start, const char *what);

#endif
