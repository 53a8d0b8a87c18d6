// The linear comparison of long calls, a call at a time. A column is what one bit of a probe is over all calls; of a probe with several
// bytes, the exclusive or of the same bit of any two of them is a column too. A column, or the exclusive or of two, leaks if it is the same
// for all choices of each input and differs between two inputs.
#ifndef COLUMNS_H
#define COLUMNS_H

#include "step.h"

enum { MOST_INPUTS = 9 };

struct columns;

// The calls come input by input, `each` for each.
struct columns *start_columns(size_t inputs, size_t each);
void end_columns(struct columns *columns);

// Takes up the next call, whose changes alone the trace holds, by bytes, and takes them out of the trace.
void add_call(struct columns *columns, struct trace *trace);

// After the last call. Prints the first few that leak, and returns how many columns do with one before them; those that are the same in all
// calls count once.
size_t leaking_columns(const struct columns *columns, const uintptr_t *addresses);

#endif
