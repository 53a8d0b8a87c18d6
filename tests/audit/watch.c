// Notes what each instruction of a call handles, in a trace.
#include "watch.h"
#include "parts.h"

#include <stdio.h>
#include <stdlib.h>
#include <string.h>

enum { STACK_ROOM = 4096, RED_ZONE = 128, LONGEST_BUFFER = 16384, ARITHMETIC_FLAGS = 0x8d5, HALF = WIDEST / 2 };

// A place is where it stands in an image of all that is watched. The last address with two registers, and what was read and written last,
// stand there like registers.
enum {
    GENERAL = 0,
    FLAGS = GENERAL + GENERAL_REGISTERS * 8,
    VECTORS = FLAGS + 8,
    ADDRESS = VECTORS + VECTOR_REGISTERS * WIDEST,
    READ = ADDRESS + 8,
    WRITTEN = READ + WIDEST,
    IMAGE = WRITTEN + WIDEST
};
_Static_assert((int)IMAGE == (int)PLACES && GENERAL == 0 && (int)FLAGS == (int)GENERAL_PLACES, "every place has a number");

static uint8_t image[IMAGE];
static uint8_t call_stack[STACK_ROOM] __attribute__((aligned(64)));
static uint8_t stack_before[STACK_ROOM], lent_before[BUFFERS][LONGEST_BUFFER];
static struct trace *watched;
static const struct call *current;
static size_t step;
static uintptr_t last_address;
static bool at_entry, later; // before the first instruction; in a call that is not the first of its trace
static struct {
    uintptr_t from;
    size_t length;
} store;                  // where the next instruction writes
static char trouble[128]; // why the call cannot be judged

// The number of more than 8 bytes: the same content has the same number in the whole run of the program.
static uint64_t number_of(const uint8_t content[WIDEST]) {
    enum { SLOTS = 1 << 20 };
    static uint8_t (*contents)[WIDEST];
    static uint64_t used;
    uint64_t words[4], hash = 0;
    if (!contents && !(contents = calloc(SLOTS, WIDEST))) abort();
    memcpy(words, content, WIDEST);
    for (int i = 0; i < 4; i++) hash = (hash ^ words[i]) * 0x9e3779b97f4a7c15u, hash ^= hash >> 29;
    if (!(words[0] | words[1] | words[2] | words[3])) return 0;
    for (uint64_t slot = hash % (SLOTS - 1) + 1;; slot = slot % (SLOTS - 1) + 1) {
        if (!memcmp(contents[slot], content, WIDEST)) return slot;
        if (memcmp(contents[slot], contents[0], WIDEST)) continue;
        if (++used > SLOTS / 2) abort();
        memcpy(contents[slot], content, WIDEST);
        return slot;
    }
}

static void note(size_t place, size_t size, const uint8_t *content) {
    uint64_t value = 0;
    if (watched->count == watched->room) {
        snprintf(trouble, sizeof trouble, "runs too long");
        return;
    }
    if (size > 8)
        value = number_of(content);
    else
        memcpy(&value, content, size);
    watched->changes[watched->count++] = (struct change){(uint32_t)step, (uint32_t)place, value};
}

// Most pieces are one byte, and most calls of memcmp can be saved.
static bool differ(const uint8_t *one, const uint8_t *other, size_t length) {
    return *one != *other || (length > 1 && memcmp(one, other, length));
}

// Notes each piece of a region that is not what it was; at entry all.
static void compare(enum part part, size_t place, const void *content, size_t length, size_t piece) {
    const uint8_t *bytes = content;
    if (!watches(part) || (!at_entry && !memcmp(image + place, bytes, length))) return;
    for (size_t at = 0; at < length; at += piece)
        if (at_entry || differ(image + place + at, bytes + at, piece)) note(place + at, piece, bytes + at);
    memcpy(image + place, bytes, length);
}

static void compare_memory(enum part part, size_t place, uintptr_t address, size_t width) {
    uint8_t content[WIDEST] = {0};
    memcpy(content, (const void *)address, width < WIDEST ? width : WIDEST);
    compare(part, place, content, WIDEST, watched->division.vector);
}

static void compare_vectors(const struct state *state) {
    static struct state lower; // whose upper halves stay 0
    if (!watches(UPPER_HALVES_PART)) {
        for (int i = 0; i < VECTOR_REGISTERS; i++) memcpy(lower.vectors[i], state->vectors[i], HALF);
        state = &lower;
    }
    compare(VECTORS_PART, VECTORS, state->vectors, sizeof state->vectors, watched->division.vector);
}

// What changes in memory must lie where the instruction is known to write: nothing in front of that or behind it.
static void check_store(const char *name, const uint8_t *bytes, uint8_t *before, size_t length) {
    uintptr_t first = (uintptr_t)bytes, last = first + length, from = store.from, to = from + store.length;
    if (from < first) from = first;
    if (to > last) to = last;
    if (from >= to) from = to = first;
    if (memcmp(before, bytes, from - first) || memcmp(before + (to - first), bytes + (to - first), last - to)) {
        memcpy(before, bytes, length);
        if (watches(STORES_PART))
            snprintf(trouble, sizeof trouble, "%#lx writes to the %s, and is not known to", (unsigned long)last_address, name);
    }
    memcpy(before + (from - first), bytes + (from - first), to - from);
}

// What the instruction that has run has left behind.
static void note_effects(const struct state *state) {
    uint64_t seen[GENERAL_REGISTERS], flags = state->flags & ARITHMETIC_FLAGS;
    for (int i = 0; i < GENERAL_REGISTERS; i++) seen[i] = watches(HIGH_BITS_PART) ? state->general[i] : state->general[i] & 0xff;
    compare(GENERAL_PART, GENERAL, seen, sizeof seen, watched->division.general);
    compare(FLAGS_PART, FLAGS, &flags, sizeof flags, watched->division.general);
    compare_vectors(state);
    if (store.length) compare_memory(WRITES_PART, WRITTEN, store.from, store.length);
    check_store("stack", call_stack, stack_before, STACK_ROOM);
    for (int i = 0; i < BUFFERS && current->lent[i].length; i++)
        check_store(current->lent[i].name, current->lent[i].bytes, lent_before[i], current->lent[i].length);
}

void give_up(uintptr_t instruction, const char *why) {
    const uint8_t *code = (const uint8_t *)instruction;
    snprintf(trouble, sizeof trouble, "%#lx %s: %02x %02x %02x %02x %02x %02x ..", (unsigned long)instruction, why, code[0], code[1], code[2],
             code[3], code[4], code[5]);
}

// What the next instruction reads, and where. An address of one register is that register's value, moved, and no new value.
static void note_operands(uintptr_t instruction, const uint64_t general[GENERAL_REGISTERS]) {
    const struct operand *operand = operands_of(instruction);
    store.length = 0;
    if (instruction == (uintptr_t)audited_memset) {
        store.from = general[RDI], store.length = general[RDX];
        return;
    }
    if (!operand && watches(INSTRUCTIONS_PART)) give_up(instruction, "is not known");
    for (; operand && operand->instruction == instruction; operand++) {
        uint64_t address = address_of(operand, general);
        if (operand->base >= 0 && operand->index >= 0) compare(ADDRESSES_PART, ADDRESS, &address, sizeof address, watched->division.general);
        if (operand->access == 'r') compare_memory(READS_PART, READ, address, operand->width);
        if (operand->access == 'w') store.from = address, store.length = operand->width;
    }
}

// The first call of a trace sets the way that all others take.
static void follow(void) {
    if (step > watched->most_steps)
        snprintf(trouble, sizeof trouble, "runs too long");
    else if (!later)
        watched->addresses[watched->steps++] = last_address;
    else if (step > watched->steps || (watched->addresses[step - 1] != last_address && watches(FLOW_PART)))
        snprintf(trouble, sizeof trouble, "control flow differs");
}

bool watch(const struct state *state) {
    if (state->general[RSP] - (uintptr_t)call_stack - RED_ZONE > STACK_ROOM - RED_ZONE)
        snprintf(trouble, sizeof trouble, "takes too much stack");
    if (!trouble[0] && !at_entry) follow();
    if (!trouble[0]) note_effects(state);
    at_entry = false;
    last_address = state->next;
    step++;
    if (!trouble[0] && state->next != (uintptr_t)audit_back) note_operands(state->next, state->general);
    return !trouble[0];
}

// There is room for the longest call, so that nothing between two instructions asks for memory.
static void make_room(struct trace *trace) {
    size_t one_call = trace->most_steps * 8;
    if (trace->room - trace->count >= one_call) return;
    trace->room = trace->count * 2 + one_call;
    trace->changes = realloc(trace->changes, trace->room * sizeof *trace->changes);
    if (!trace->changes) abort();
}

void *start_watching(struct trace *trace, const struct call *call) {
    uint64_t *stack_arguments = (uint64_t *)(void *)(call_stack + STACK_ROOM) - STACK_ARGUMENTS;
    make_room(trace);
    memset(call_stack, 0, sizeof call_stack);
    memset(image, 0, sizeof image);
    memcpy(stack_arguments, call->arguments + REGISTER_ARGUMENTS, STACK_ARGUMENTS * sizeof *stack_arguments);
    stack_arguments[-1] = (uintptr_t)audit_back;
    memcpy(stack_before, call_stack, STACK_ROOM);
    for (int i = 0; i < BUFFERS && call->lent[i].length; i++) {
        if (call->lent[i].length > LONGEST_BUFFER) abort();
        memcpy(lent_before[i], call->lent[i].bytes, call->lent[i].length);
    }
    watched = trace;
    current = call;
    step = 0;
    store.length = 0;
    at_entry = true;
    later = trace->steps > 0;
    trouble[0] = 0;
    return stack_arguments;
}

const char *stop_watching(void) {
    if (!trouble[0] && step != watched->steps + 1) return "control flow differs";
    return trouble[0] ? trouble : NULL;
}

uint32_t value_at(uint32_t place, uint32_t *bytes) {
    if (place >= VECTORS && place < ADDRESS) return *bytes = WIDEST, VECTORS + (place - VECTORS) / WIDEST * WIDEST;
    if (place >= READ) return *bytes = WIDEST, place < WRITTEN ? READ : WRITTEN;
    return *bytes = 8, place / 8 * 8; // general registers, flags and address stand at multiples of 8
}
_Static_assert(GENERAL % 8 == 0 && FLAGS % 8 == 0 && ADDRESS % 8 == 0, "a value of 8 bytes stands at a multiple of 8");

void name_place(uint32_t place, char name[NAME_LENGTH]) {
    static const char *const general[GENERAL_REGISTERS] = {"rax", "rbx", "rcx", "rdx", "rsi", "rdi", "rbp", "rsp",
                                                           "r8",  "r9",  "r10", "r11", "r12", "r13", "r14", "r15"};
    uint32_t bytes, start = value_at(place, &bytes);
    if (start < FLAGS)
        snprintf(name, NAME_LENGTH, "%s", general[(start - GENERAL) / 8]);
    else if (start >= VECTORS && start < ADDRESS)
        snprintf(name, NAME_LENGTH, "ymm%u", (start - VECTORS) / WIDEST);
    else
        snprintf(name, NAME_LENGTH, "%s", start == FLAGS ? "flags" : start == ADDRESS ? "address" : start == READ ? "read" : "written");
    if (place > start) snprintf(name + strlen(name), NAME_LENGTH - strlen(name), ", byte %u", place - start);
}
