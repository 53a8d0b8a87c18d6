// What is watched between any two instructions of a call, whoever runs them: what the first has changed and written, and what the second
// will read.
#ifndef WATCH_H
#define WATCH_H

#include "operands.h"
#include "step.h"

#include <stdbool.h>

enum { WIDEST = 32, VECTOR_REGISTERS = 16 };

// What the processor holds between two instructions, and the address of the second. copies.s knows where each stands.
struct state {
    uint64_t general[GENERAL_REGISTERS], flags, next;
    uint8_t vectors[VECTOR_REGISTERS][WIDEST];
};

// Before a call: lays out its stack, and returns where the stack arguments begin. Below them stands the address that it returns to.
void *start_watching(struct trace *trace, const struct call *call);

// Before each instruction of the call, and behind the last. False where the call is to be given up.
bool watch(const struct state *state);

// The call cannot be judged.
void give_up(uintptr_t instruction, const char *why);

// After a call: NULL, or why it cannot be judged.
const char *stop_watching(void);

// enter.s: where a call returns to; memset, and the one instruction behind it.
extern char audit_back[], audited_memset[], audited_memset_done[];

#endif
