// Probes: what stands in one place after one step, over all calls of a trace.
#ifndef PROBES_H
#define PROBES_H

#include "step.h"

#include <stdbool.h>

// Calls in which a probe has the same value have the same class. Classes are numbered as they first appear, so two probes that tell calls
// apart in the same way have the same classes.
struct probe {
    uint32_t step, place;
    uint16_t *classes; // one for each call; NULL as long as there is one class alone
    uint64_t *values;  // one for each class
    size_t count;      // of classes
    uint32_t *slots;   // where a value's class is found
    size_t slot_count;
};

struct probes {
    struct probe *list; // in the order of their steps
    size_t count, room, calls, taken;
    bool *known; // for each step and place, whether there is a probe of it
    const uintptr_t *addresses;
};

// Every place that some call of the trace changes at a step, with its value after that step in every call: first none, then a call at a time,
// whose changes alone the trace holds and which are taken out of it. Probes that are the same in all calls are left out at the end: nothing
// depends on them.
struct probes start_probes(const struct trace *trace, size_t calls);
void take_call(struct probes *probes, struct trace *trace);
void keep_varying(struct probes *probes);
void drop_probes(struct probes *probes);

// A probe's value in a call.
uint64_t value_in(const struct probe *probe, size_t call);

// Prints what leaks, up to some number of times; the second is NULL where the first leaks alone.
enum { SHOWN = 8 };
void print_leak(const struct probes *probes, const struct probe *one, const struct probe *other);

// Memory for so many, all 0; the program ends where there is none.
void *room(size_t count, size_t size);

// The exact comparison. The calls come input by input, equally many for each input, all choices of masks. Two probes leak if for
// some two values another number of choices shows them for one input than for another. Prints the first few that leak, and
// returns how many pairs do; probes that tell calls apart in the same way count once.
size_t leaking_pairs(const struct probes *probes, size_t inputs);

// For what must not depend on the contents that it is lent: each probe that does leaks alone.
size_t dependent_probes(const struct probes *probes, size_t inputs);

// The linear comparison, for choices drawn at random: a probe, or the exclusive or of two, leaks if it is the same for all
// choices of each input and differs between two inputs.
size_t leaking_sums(const struct probes *probes, size_t inputs);

// The linear comparison where some masks are single bits, and what is handled is an exclusive or of the other masks once these are set. The
// calls come input by input, and setting by setting for each; in each setting the other masks run through the same 64 choices, drawn at
// random but for every fourth, which is the exclusive or of the three before. Probes are bytes. Of two bits that are such sums in every
// setting, it follows how many of all choices show each pair of values; they leak if that is another number for one input than for another.
// Prints the first few that do, and returns how many; bits that are the same in all calls, or the contrary, count once.
size_t leaking_settings(const struct probes *probes, size_t inputs, size_t settings);

#endif
