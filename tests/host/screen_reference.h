// The screen in plain C, written from the requirements alone, to compare the proved one with.
#ifndef SCREEN_REFERENCE_H
#define SCREEN_REFERENCE_H

#include <stddef.h>
#include <stdint.h>

// The start of the first faulty window of a run, or UINT64_MAX. The parameters are those of the exported call.
uint64_t reference_screen(const uint8_t *run, size_t length);

#endif
