// Single steps by the processor's trap flag: between any two instructions of the call a signal handler hands over what the processor holds.
// x86-64 Linux only.
#define _GNU_SOURCE
#include "step.h"
#include "parts.h"
#include "watch.h"

#include <cpuid.h>
#include <signal.h>
#include <stdlib.h>
#include <string.h>
#include <ucontext.h>

enum { TRAP_FLAG = 0x100, HALF = WIDEST / 2 };

static uint8_t handler_stack[1 << 16];
static size_t upper_halves; // where the upper halves of the vector registers stand in the saved state, or 0

// What enter.s reads and writes.
uint64_t audit_arguments[REGISTER_ARGUMENTS];
void *audit_code, *audit_stack, *audit_own_stack;
uint64_t audit_result, audit_wide;
void audit_enter(void);

static void copy_vectors(struct state *state, const struct _libc_fpstate *saved) {
    uint64_t in_use = 0;
    memset(state->vectors, 0, sizeof state->vectors);
    for (int i = 0; i < VECTOR_REGISTERS; i++) memcpy(state->vectors[i], &saved->_xmm[i], HALF);
    if (upper_halves) memcpy(&in_use, (const uint8_t *)saved + 512, 8);
    if (in_use & 4)
        for (int i = 0; i < VECTOR_REGISTERS; i++) memcpy(state->vectors[i] + HALF, (const uint8_t *)saved + upper_halves + HALF * i, HALF);
}

static void between_instructions(int signal, siginfo_t *information, void *context_of_call) {
    static const int order[GENERAL_REGISTERS] = {REG_RAX, REG_RBX, REG_RCX, REG_RDX, REG_RSI, REG_RDI, REG_RBP, REG_RSP,
                                                 REG_R8,  REG_R9,  REG_R10, REG_R11, REG_R12, REG_R13, REG_R14, REG_R15};
    ucontext_t *context = context_of_call;
    greg_t *saved = context->uc_mcontext.gregs;
    struct state state;
    (void)signal, (void)information;
    for (int i = 0; i < GENERAL_REGISTERS; i++) state.general[i] = (uint64_t)saved[order[i]];
    state.flags = (uint64_t)saved[REG_EFL];
    state.next = (uint64_t)saved[REG_RIP];
    copy_vectors(&state, context->uc_mcontext.fpregs);
    if (!watch(&state)) saved[REG_RIP] = (greg_t)audit_back; // the call is given up
    if (state.next == (uintptr_t)audited_memset_done) saved[REG_EFL] |= TRAP_FLAG;
    if (saved[REG_RIP] == (greg_t)audit_back || state.next == (uintptr_t)audited_memset) saved[REG_EFL] &= ~TRAP_FLAG;
}

void start_trace(struct trace *trace, struct division division, size_t most_steps) {
    static bool ready;
    unsigned size, offset, unused, features;
    *trace = (struct trace){division, most_steps, NULL, 0, 0, calloc(most_steps + 1, sizeof(uintptr_t)), 0};
    if (!trace->addresses) abort();
    if (ready) return;
    ready = true;
    if (__get_cpuid_count(13, 2, &size, &offset, &unused, &features) && size == 256 && __builtin_cpu_supports("avx")) {
        upper_halves = offset;
        audit_wide = 1;
    }
    stack_t stack = {.ss_sp = handler_stack, .ss_size = sizeof handler_stack};
    struct sigaction action = {.sa_sigaction = between_instructions, .sa_flags = SA_SIGINFO | SA_ONSTACK};
    if (sigaltstack(&stack, NULL) || sigaction(SIGTRAP, &action, NULL)) abort();
}

void end_trace(struct trace *trace) {
    free(trace->changes);
    free(trace->addresses);
}

const char *step_through(struct trace *trace, const struct call *call, uint64_t *result) {
    audit_stack = start_watching(trace, call);
    memcpy(audit_arguments, call->arguments, sizeof audit_arguments);
    audit_code = (void *)(uintptr_t)call->code;
    audit_enter();
    *result = audit_result;
    return stop_watching();
}
