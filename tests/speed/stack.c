// How deep the stack of each exported call is: bytes below its return address. Each call runs on a stack of its own, which is filled with a
// pattern before: the lowest byte that has changed after it is the deepest. Prints a row of the table for each call.
#include <stdbool.h>
#include <stdint.h>
#include <stdio.h>
#include <stdlib.h>
#include <ucontext.h>
#include "cippazhey.h"

enum { STACK_LENGTH = 1 << 16, ROUNDS = 60 };

// The stack pointer at the entry of a call, where its return address stands.
uintptr_t stack_at_entry;

// A call that notes it first. The call itself then begins with the same stack and registers.
#define NOTED(call)                                                                                                            \
    extern __typeof__(cippazhey_##call) noted_##call;                                                                          \
    __asm__(".globl noted_" #call "\nnoted_" #call ":\n mov %rsp, stack_at_entry(%rip)\n jmp cippazhey_" #call "\n")
NOTED(plain_call);
NOTED(encrypt_frame);
NOTED(select);
NOTED(screen);
NOTED(clear);

static uint8_t stack[STACK_LENGTH] __attribute__((aligned(4096)));
static uint8_t table[256], scratch[CIPPAZHEY_SCRATCH_LENGTH], numbers[CIPPAZHEY_RANDOM_LENGTH], blocks[7][16];
static ucontext_t here, there;

// The firmware's own functions take what they take; these take no stack.
void *memset(void *to, int value, size_t length) {
    for (volatile uint8_t *at = to; length > 0; length--) {
        *at++ = (uint8_t)value;
    }
    return to;
}
void *memcpy(void *to, const void *from, size_t length) {
    const uint8_t *next = from;
    for (volatile uint8_t *at = to; length > 0; length--) {
        *at++ = *next++;
    }
    return to;
}

static void must_be(uint64_t found, uint64_t wanted) {
    if (found != wanted) {
        exit(1);
    }
}

static void look_up(uint32_t method) {
    must_be(noted_plain_call(method, 8, 8, numbers[0], numbers[1], numbers[2], numbers[3], numbers[4], method == 5 ? 0 : numbers[5],
                             method == 3, table, sizeof table, scratch, sizeof scratch) / 256, CIPPAZHEY_ACCEPTED);
}
static void look_up_by_2(void) {
    look_up(2);
}
static void look_up_by_3(void) {
    look_up(3);
}
static void look_up_by_5(void) {
    look_up(5);
}
static void encrypt(void) {
    must_be(noted_encrypt_frame(blocks[0], blocks[1], blocks[2], blocks[3], numbers, sizeof numbers, scratch, sizeof scratch, blocks[4],
                                blocks[5], blocks[6]), CIPPAZHEY_ACCEPTED);
}
static void choose(void) {
    must_be(noted_select(8, numbers[0] * 256u + numbers[1], numbers[2] * 256u + numbers[3], numbers[4] * 256u + numbers[5], numbers[6] % 2,
                         numbers[7] % 2, numbers[8] % 2, numbers[9], numbers[10], numbers[11] % 2, &blocks[4][0], &blocks[5][0], &blocks[6][0]),
            CIPPAZHEY_ACCEPTED);
}
static void screen(void) {
    must_be(noted_screen(numbers, sizeof numbers), CIPPAZHEY_NO_FAULT);
}
static void clear(void) {
    noted_clear(scratch, sizeof scratch);
}

static size_t depth(void (*call)(void), uint8_t pattern) {
    size_t lowest = 0;
    memset(stack, pattern, sizeof stack);
    memset(scratch, 0, sizeof scratch);
    getcontext(&there);
    there.uc_stack.ss_sp = stack;
    there.uc_stack.ss_size = sizeof stack;
    there.uc_link = &here;
    makecontext(&there, call, 0);
    swapcontext(&here, &there);
    while (stack[lowest] == pattern) {
        lowest++;
    }
    return stack_at_entry - (uintptr_t)(stack + lowest);
}

// Each value once, or half of them twice, which is fit and not balanced and is looked at for longer.
static void fill_table(bool balanced) {
    for (size_t at = 0; at < sizeof table; at++) {
        table[at] = (uint8_t)(balanced ? at : at / 2);
    }
}

// The deepest of many, with other patterns, numbers and tables: what is written may be what stood there.
static void print_row(const char *name, void (*call)(void)) {
    size_t deepest = 0;
    for (unsigned round = 0; round < ROUNDS; round++) {
        for (size_t at = 0; at < sizeof numbers; at++) {
            numbers[at] = (uint8_t)rand();
        }
        fill_table(round % 2 == 0);
        size_t found = depth(call, (uint8_t)(37 * round + 1));
        deepest = found > deepest ? found : deepest;
    }
    printf("| %s | %zu |\n", name, deepest);
}

int main(void) {
    print_row("`cippazhey_plain_call`, method 2", look_up_by_2);
    print_row("`cippazhey_plain_call`, method 3", look_up_by_3);
    print_row("`cippazhey_plain_call`, method 5", look_up_by_5);
    print_row("`cippazhey_encrypt_frame`", encrypt);
    print_row("`cippazhey_select`", choose);
    print_row("`cippazhey_screen`", screen);
    print_row("`cippazhey_clear`", clear);
}
