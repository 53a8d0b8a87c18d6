// A screen under many runs of one length: its calls, whether they can be judged, where each touches memory, and what each byte takes.
#include "screen.h"
#include "copies.h"
#include "frame.h"
#include "operands.h"
#include "parts.h"
#include "probes.h"
#include "random.h"
#include "watch.h"

#include <stdbool.h>
#include <stdio.h>
#include <stdlib.h>
#include <string.h>

enum { RUNS = 12, LONGEST = 2000, MOST_STEPS = 1 << 20, MOST_A_BYTE = 40, MOST_OPERANDS = 2 };

// General registers are noted whole, since addresses are made of them.
static const struct division whole = {8, 8};

static uint8_t runs[RUNS][LONGEST], run[LONGEST];

// The runs of one length, and the addresses that each run's call takes, in order, with the instructions that take them.
struct study {
    size_t length;
    struct trace trace;
    uint64_t *addresses[RUNS];
    uintptr_t *instructions;
    size_t count; // of each
};

// None is faulty. Bytes drawn at random; values in turns, of which 26 stand up to 20 times in a window; and few bytes of one value.
static void choose_runs(size_t length) {
    for (size_t number = 0; number < RUNS; number++) {
        size_t values = number % 4 == 1 ? 26 : number % 4 == 2 ? 255 : 0;
        for (size_t i = 0; i < length; i++) runs[number][i] = values ? (uint8_t)(number + i % values) : random_byte();
        for (size_t i = number; i < length && number % 4 == 3; i += 40) runs[number][i] = 0;
    }
}

// Where a call touches memory, from what it notes of the general registers, and which instruction does. Returns how often.
static size_t list_addresses(const struct trace *trace, uint64_t *addresses, uintptr_t *instructions) {
    uint64_t general[GENERAL_REGISTERS] = {0};
    const struct change *change = trace->changes, *end = change + trace->count;
    size_t count = 0;
    for (size_t step = 0; step < trace->steps; step++) {
        for (; change < end && change->step <= step; change++)
            if (change->place < GENERAL_PLACES) general[change->place / 8] = change->value;
        const struct operand *operand = operands_of(trace->addresses[step]);
        for (; operand && operand->instruction == trace->addresses[step]; operand++) {
            if (operand->access == '-') continue;
            instructions[count] = operand->instruction;
            addresses[count++] = address_of(operand, general);
        }
    }
    return count;
}

// Makes one call; NULL, or why it cannot be judged.
static const char *one_call(runner *runner, struct trace *trace, const struct screen *screen, size_t length) {
    struct call call = {screen->code, {(uintptr_t)run, length}, {{"run", run, length}}};
    uint64_t result;
    const char *trouble = runner(trace, &call, &result);
    return !trouble && result != UINT64_MAX && watches(ANSWERS_PART) ? "wrong answer" : trouble;
}

// The first call is stepped through, and run by copies too: both must note the same.
static const char *call_number(size_t number, struct study *study, const struct screen *screen) {
    const char *trouble = NULL;
    memcpy(run, runs[number], study->length);
    if (number == 0) trouble = one_call(step_through, &study->trace, screen, study->length);
    size_t count = study->trace.count;
    if (!trouble) trouble = one_call(run_copies, &study->trace, screen, study->length);
    if (!trouble && number == 0 && !noted_again(&study->trace, count)) trouble = "copied instructions do otherwise";
    if (trouble) return trouble;
    size_t most = study->trace.steps * MOST_OPERANDS;
    if (number == 0) study->instructions = room(most, sizeof *study->instructions);
    study->addresses[number] = room(most, sizeof(uint64_t));
    study->count = list_addresses(&study->trace, study->addresses[number], study->instructions);
    study->trace.count = 0;
    return NULL;
}

static bool make_calls(struct study *study, const struct screen *screen) {
    for (size_t number = 0; number < RUNS; number++) {
        const char *trouble = call_number(number, study, screen);
        if (!trouble) continue;
        printf("    %s: run %lu\n", trouble, (unsigned long)number);
        return false;
    }
    printf("    %d calls of %lu instructions, %lu of their operands in memory\n", RUNS, (unsigned long)study->trace.steps,
           (unsigned long)study->count);
    return true;
}

// Whether an address moves from run to run like so many times one byte of the run.
static bool moves_like(const struct study *study, size_t at, size_t place, uint64_t times) {
    for (size_t number = 1; number < RUNS; number++) {
        uint64_t move = study->addresses[number][at] - study->addresses[0][at];
        if (move != times * ((uint64_t)runs[number][place] - runs[0][place])) return false;
    }
    return true;
}

// Whether an address is the same in all runs, or is made of one byte.
static bool of_one_byte(const struct study *study, size_t at) {
    if (moves_like(study, at, 0, 0)) return true;
    for (size_t place = 0; place < study->length; place++)
        for (uint64_t times = 1; times <= 8; times *= 2)
            if (moves_like(study, at, place, times)) return true;
    return false;
}

// Whether each byte of the run is read once, one after the other, in the first call. What leaves the window then comes from a record.
static bool reads_once(const struct study *study) {
    size_t read = 0;
    for (size_t at = 0; at < study->count; at++) {
        uint64_t place = study->addresses[0][at] - (uintptr_t)run;
        if (place >= study->length) continue;
        if (place != read++) return false;
    }
    return read == study->length;
}

static size_t leaking_addresses(const struct study *study) {
    size_t leaking = 0;
    for (size_t at = 0; at < study->count && watches(ADDRESSES_PART); at++) {
        if (of_one_byte(study, at)) continue;
        if (leaking++ < SHOWN)
            printf("    leak: where %#lx touches memory depends on more than one byte\n", (unsigned long)study->instructions[at]);
    }
    return leaking;
}

static int audit_length(const struct screen *screen, size_t length) {
    struct study study = {.length = length};
    int found = UNKNOWN;
    printf("%s, %d runs of %lu bytes\n", screen->name, RUNS, (unsigned long)length);
    start_trace(&study.trace, whole, MOST_STEPS);
    choose_runs(length);
    if (make_calls(&study, screen)) {
        found = leaking_addresses(&study) ? LEAKS : SILENT;
        if (watches(READING_PART) && !reads_once(&study)) found = UNKNOWN, printf("    the run is not read once\n");
    }
    end_trace(&study.trace);
    free(study.instructions);
    for (size_t number = 0; number < RUNS; number++) free(study.addresses[number]);
    return found;
}

// What a call takes: its instructions, and how often it clears memory.
struct cost {
    size_t instructions, clearings;
};

// Makes a call on a run; whether it can be judged.
static bool take_cost(const struct screen *screen, size_t length, struct cost *cost) {
    struct trace trace;
    start_trace(&trace, whole, MOST_STEPS);
    memcpy(run, runs[0], length);
    const char *trouble = one_call(run_copies, &trace, screen, length);
    if (trouble) printf("    %s: a run of %lu bytes\n", trouble, (unsigned long)length);
    *cost = (struct cost){trace.steps, 0};
    for (size_t step = 0; step < trace.steps; step++) cost->clearings += trace.addresses[step] == (uintptr_t)audited_memset;
    end_trace(&trace);
    return !trouble;
}

// Whether each byte more takes few instructions more and clears nothing, from the first on.
static bool keeps_pace(const struct screen *screen) {
    static const size_t lengths[] = {0, 632, LONGEST / 2, LONGEST};
    struct cost cost, before;
    choose_runs(LONGEST);
    for (size_t i = 0; i < sizeof lengths / sizeof *lengths; i++, before = cost) {
        if (!take_cost(screen, lengths[i], &cost)) return false;
        printf("%s, %lu bytes: %lu instructions\n", screen->name, (unsigned long)lengths[i], (unsigned long)cost.instructions);
        if (i == 0) continue;
        bool slow = cost.instructions >= before.instructions + (lengths[i] - lengths[i - 1]) * MOST_A_BYTE;
        if (slow) printf("    too many instructions a byte\n");
        if (cost.clearings > before.clearings) printf("    bytes clear memory\n");
        if (slow || cost.clearings > before.clearings) return false;
    }
    return true;
}

int audit_screen(const struct screen *screen) {
    static const size_t lengths[] = {0, 1, 512, 632};
    int found = watches(PACE_PART) && !keeps_pace(screen) ? UNKNOWN : SILENT;
    for (size_t i = 0; i < sizeof lengths / sizeof *lengths && found == SILENT; i++) found = audit_length(screen, lengths[i]);
    return found;
}
