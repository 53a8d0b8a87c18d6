// The audit of a choice of one half by a masked bit.
#ifndef SELECTION_H
#define SELECTION_H

#include "subjects.h"

#include <stdbool.h>

// Exhaustive at width 1, and at width 2 where the selection has words for it, if `small`; then by sums at widths 3 to 8, if `large` and
// nothing leaks so far. At each width the way through the code must be the same, if both. The result is one of those in frame.h.
int audit_selection(const struct selection *selection, bool small, bool large);

#endif
