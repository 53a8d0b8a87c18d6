// Runs a call one instruction at a time, and writes down what each instruction handles: what it changes in a general or a vector
// register or in the flags, what it reads from memory or writes to it, and where.
#ifndef STEP_H
#define STEP_H

#include <stddef.h>
#include <stdint.h>

enum { REGISTER_ARGUMENTS = 6, STACK_ARGUMENTS = 10, ARGUMENTS = REGISTER_ARGUMENTS + STACK_ARGUMENTS, BUFFERS = 9 };

// How many bytes make one probe: of a general register, the flags or an address, and of a vector register or of what is read or
// written at once. More than 8 are kept as the number of their content.
struct division {
    size_t general, vector;
};

struct buffer {
    const char *name;
    const void *bytes;
    size_t length;
};

// What is stepped through: its code, its arguments, and the memory that it is lent.
struct call {
    void (*code)(void);
    uint64_t arguments[ARGUMENTS];
    struct buffer lent[BUFFERS];
};

// At a step, a place has a new value. Step 0 is the moment before the first instruction.
struct change {
    uint32_t step, place;
    uint64_t value;
};

// What was written down of all calls so far: their changes behind each other, and the address of each step's instruction.
struct trace {
    struct division division;
    size_t most_steps; // of one call
    struct change *changes;
    size_t count, room;
    uintptr_t *addresses;
    size_t steps;
};

void start_trace(struct trace *trace, struct division division, size_t most_steps);
void end_trace(struct trace *trace);

// Makes the call and adds its changes to the trace. Returns NULL, or why it cannot be judged: it takes another way than the first call of
// the trace, runs too long, takes too much stack, comes to an instruction that is not known, or one writes where it is not known to.
typedef const char *runner(struct trace *trace, const struct call *call, uint64_t *result);

runner step_through;

// Writes a place's name, as "rax", "ymm3" or "read".
enum { NAME_LENGTH = 24 };
void name_place(uint32_t place, char name[NAME_LENGTH]);

// How many places there are: each is below this. The first are the general registers, in the order of operands.h, 8 bytes each.
enum { PLACES = 720, GENERAL_PLACES = 128 };

// Where the value begins that a place is a byte of, and how many bytes it has: a register, or what is read or written at once.
uint32_t value_at(uint32_t place, uint32_t *bytes);

#endif
