// Carries out a study.
#include "study.h"
#include "copies.h"
#include "frame.h"
#include "parts.h"

#include <stdio.h>
#include <stdlib.h>
#include <string.h>

enum { MOST_STEPS = 1 << 16 };

static uintptr_t *audited; // in order
static size_t audited_count;

// The first call is stepped through and run by copies too: both must note the same.
static const char *first_call(const struct study *study, runner *later, struct trace *trace) {
    const char *trouble = study->call(step_through, trace);
    size_t count = trace->count;
    if (!trouble) trouble = study->call(later, trace);
    if (trouble) return trouble;
    return noted_again(trace, count) ? NULL : "copied instructions do otherwise";
}

static bool make_calls(const struct study *study, struct trace *trace, struct probes *probes) {
    runner *later = watches(INSTRUCTIONS_PART) ? run_copies : step_through; // what is not known can't be copied
    for (size_t call = 0; call < probes->calls; call++) {
        study->choose(call / study->each, call % study->each);
        const char *trouble = call ? study->call(later, trace) : first_call(study, later, trace);
        if (trouble) {
            printf("    %s: ", trouble);
            study->print_numbers();
            return false;
        }
        if (call == 0 && study->way && !study->way(trace)) return false;
        take_call(probes, trace);
    }
    return true;
}

int carry_out(const struct study *study, struct trace *trace) {
    int found = UNKNOWN;
    start_trace(trace, study->division, MOST_STEPS);
    struct probes probes = start_probes(trace, study->inputs * study->each);
    if (make_calls(study, trace, &probes)) {
        keep_varying(&probes);
        printf("    %lu calls of %lu instructions, %lu probes\n", (unsigned long)probes.calls, (unsigned long)trace->steps,
               (unsigned long)probes.count);
        found = study->leaking(&probes, study->inputs) ? LEAKS : SILENT;
    }
    drop_probes(&probes);
    return found;
}

uint32_t take_bits(size_t *number, uint32_t width) {
    uint32_t value = (uint32_t)*number & ((1u << width) - 1);
    *number >>= width;
    return value;
}

static int by_address(const void *one, const void *other) {
    uintptr_t left = *(const uintptr_t *)one, right = *(const uintptr_t *)other;
    return left < right ? -1 : left > right;
}

void add_audited(const struct trace *trace) {
    audited = realloc(audited, (audited_count + trace->steps) * sizeof *audited);
    if (!audited) abort();
    memcpy(audited + audited_count, trace->addresses, trace->steps * sizeof *audited);
    audited_count += trace->steps;
    qsort(audited, audited_count, sizeof *audited, by_address);
}

bool all_audited(const struct trace *trace) {
    for (size_t i = 0; i < trace->steps; i++)
        if (!bsearch(&trace->addresses[i], audited, audited_count, sizeof *audited, by_address)) {
            printf("    %#lx runs here and in no exhaustive case above width 1\n", (unsigned long)trace->addresses[i]);
            return false;
        }
    return true;
}
