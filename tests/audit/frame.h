// The audit of a whole frame.
#ifndef FRAME_H
#define FRAME_H

#include "subjects.h"

#include <stddef.h>

// What an audit ends with.
enum { SILENT = 0, LEAKS = 1, UNKNOWN = 2, WRONG_USAGE = 3 };

enum { FRAME_CHOICES = 24 };

// The linear comparison of a frame under so many keys and one plaintext, with so many choices each of the key's shares and of all random bytes.
int audit_frame(const struct frame *frame, size_t keys);

#endif
