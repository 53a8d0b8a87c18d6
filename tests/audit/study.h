// A study: some inputs, each with equally many choices of masks, all of their calls watched, and their probes compared.
#ifndef STUDY_H
#define STUDY_H

#include "probes.h"

struct study {
    struct division division;
    size_t inputs, each;
    void (*choose)(size_t input, size_t choice);           // the numbers of the next call
    const char *(*call)(runner *run, struct trace *trace); // makes it; NULL, or why it cannot be judged
    void (*print_numbers)(void);
    size_t (*leaking)(const struct probes *probes, size_t inputs);
    bool (*way)(const struct trace *trace); // whether the way that all calls take will do, or NULL
};

// The result is one of those in frame.h. Starts the trace; its steps and their addresses stay there.
int carry_out(const struct study *study, struct trace *trace);

// The next bits of a number, which are taken off it.
uint32_t take_bits(size_t *number, uint32_t width);

// Takes up the addresses that an exhaustive study has executed; and whether those of a trace are all among them.
void add_audited(const struct trace *trace);
bool all_audited(const struct trace *trace);

#endif
