// Copies of instructions. One that names a place by its distance gets the distance from its copy. Jumps, calls and returns are carried out
// here; a branch is copied, so that the flags decide, and both its ways lead back.
#define _GNU_SOURCE
#include "copies.h"
#include "watch.h"

#include <stdlib.h>
#include <string.h>
#include <sys/mman.h>

enum { COPY_ROOM = 32, MOST_COPIES = 1 << 14, AT_ENTRY = 0x246 /* the flags that enter.s leaves */, JUMP = 0xe9, JUMP_LENGTH = 5 };

static uint8_t copies[MOST_COPIES][COPY_ROOM] __attribute__((aligned(4096)));
static size_t used;
static uint8_t **copy_at; // by address; NULL where there is none yet
extern char __executable_start[], etext[];

// What copies.s reads and writes.
struct state audit_state;
void *audit_copy;
uint64_t audit_taken;
extern char audit_copy_done[], audit_copy_taken[];
void audit_run_copy(void);
_Static_assert(offsetof(struct state, flags) == 128 && offsetof(struct state, vectors) == 144, "copies.s knows where each stands");

// Writes the distance from the place behind four bytes.
static void put_distance(uint8_t *at, uintptr_t to) {
    int32_t distance = (int32_t)(to - (uintptr_t)(at + 4));
    memcpy(at, &distance, 4);
}

static void put_jump(uint8_t *at, uintptr_t to) {
    *at = JUMP;
    put_distance(at + 1, to);
}

// 0x70 to 0x7f with a distance of one byte, 0x0f and 0x80 to 0x8f with one of four: the copy has four. False for any other.
static bool copy_branch(uint8_t *copy, const uint8_t *code, int length) {
    int condition = length == 2 && code[0] >> 4 == 7 ? code[0] & 15 : length == 6 && code[0] == 0x0f && code[1] >> 4 == 8 ? code[1] & 15 : -1;
    if (condition < 0) return false;
    copy[0] = 0x0f, copy[1] = (uint8_t)(0x80 | condition);
    put_distance(copy + 2, (uintptr_t)audit_copy_taken);
    put_jump(copy + 6, (uintptr_t)audit_copy_done);
    return true;
}

// The four bytes that hold the distance to the place must be found in one way.
static bool copy_with_distance(uint8_t *copy, const struct operand *instruction) {
    int32_t distance = (int32_t)(instruction->place - instruction->instruction) - instruction->length;
    int found = 0, at = 0;
    for (int i = 1; i + 4 <= instruction->length; i++)
        if (!memcmp(copy + i, &distance, 4)) found++, at = i;
    distance += (int32_t)(instruction->instruction - (uintptr_t)copy);
    memcpy(copy + at, &distance, 4);
    return found == 1;
}

static bool copy_whole(uint8_t *copy, uintptr_t address, int length) {
    if (length > COPY_ROOM - JUMP_LENGTH) return false;
    memcpy(copy, (const void *)address, (size_t)length);
    put_jump(copy + length, (uintptr_t)audit_copy_done);
    return true;
}

// memset runs as one, up to the int3 that ends its step.
static bool fill(uint8_t *copy, const struct operand *instruction, uintptr_t address) {
    if (address == (uintptr_t)audited_memset) return copy_whole(copy, address, (int)(audited_memset_done - audited_memset) - 1);
    switch (instruction ? instruction->way : 'x') {
    case 'b': return copy_branch(copy, (const uint8_t *)address, instruction->length);
    case 'm': return copy_whole(copy, address, instruction->length) && copy_with_distance(copy, instruction);
    case 'n': return copy_whole(copy, address, instruction->length);
    default: return false;
    }
}

static uint8_t *copy_of(const struct operand *instruction, uintptr_t address) {
    uint8_t **copy = &copy_at[address - (uintptr_t)__executable_start];
    if (*copy) return *copy;
    if (used == MOST_COPIES) abort();
    *copy = copies[used++];
    if (!fill(*copy, instruction, address)) *copy = NULL, give_up(address, "cannot be copied");
    return *copy;
}

static void push(uint64_t value) {
    audit_state.general[RSP] -= 8;
    memcpy((void *)audit_state.general[RSP], &value, 8);
}

static uint64_t pop(void) {
    uint64_t value;
    memcpy(&value, (const void *)audit_state.general[RSP], 8);
    audit_state.general[RSP] += 8;
    return value;
}

static void run_one(void) {
    uintptr_t address = audit_state.next;
    const struct operand *instruction = operands_of(address);
    char way = instruction ? instruction->way : 'x';
    if (way == 'c') push(address + (uintptr_t)instruction->length);
    if (way == 'c' || way == 'j') audit_state.next = instruction->place;
    if (way == 'r') audit_state.next = pop();
    if (way == 'c' || way == 'j' || way == 'r' || !(audit_copy = copy_of(instruction, address))) return;
    audit_taken = 0;
    audit_run_copy();
    if (address == (uintptr_t)audited_memset)
        audit_state.next = (uintptr_t)audited_memset_done;
    else
        audit_state.next = audit_taken ? instruction->place : address + (uintptr_t)instruction->length;
}

static void prepare(void) {
    if (copy_at) return;
    copy_at = calloc((size_t)(etext - __executable_start), sizeof *copy_at);
    if (!copy_at || mprotect(copies, sizeof copies, PROT_READ | PROT_WRITE | PROT_EXEC)) abort();
}

bool noted_again(struct trace *trace, size_t second) {
    bool same = trace->count == 2 * second && !memcmp(trace->changes, trace->changes + second, second * sizeof *trace->changes);
    trace->count = second;
    return same;
}

const char *run_copies(struct trace *trace, const struct call *call, uint64_t *result) {
    static const int order[REGISTER_ARGUMENTS] = {RDI, RSI, RDX, RCX, R8, R9};
    prepare();
    memset(&audit_state, 0, sizeof audit_state);
    for (int i = 0; i < REGISTER_ARGUMENTS; i++) audit_state.general[order[i]] = call->arguments[i];
    audit_state.general[RSP] = (uintptr_t)start_watching(trace, call) - 8;
    audit_state.flags = AT_ENTRY;
    audit_state.next = (uintptr_t)call->code;
    while (watch(&audit_state) && audit_state.next != (uintptr_t)audit_back) run_one();
    *result = audit_state.general[RAX];
    return stop_watching();
}
