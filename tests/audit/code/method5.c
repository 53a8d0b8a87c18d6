// Lookups by method 5 in C, with barriers, that handle too much. Compiled with -DCALL=NAME and one of:
//   -DOUTPUT_MASKS   both output masks are joined, and added in the first pass
//   -DINPUT_MASKS    both input masks are joined, and the first pass goes by them
//   -DONE_PASS       there is no second pass: a share and a mask are joined to find the byte of the first half
//   -DTWO_BYTES      two bytes of the second half are read at once: what they differ by tells the input, where the table is not affine
#define GUARDED
#include "../../speed/barrier.h"
#include "../../speed/baseline.h"

#ifdef OUTPUT_MASKS
#define OTHER_OUTPUT s2
#else
#define OTHER_OUTPUT 0
#endif
#ifdef INPUT_MASKS
#define OTHER_INPUT r2
#else
#define OTHER_INPUT 0
#endif

static uint8_t answer(const uint8_t *half, size_t x0) {
#ifdef TWO_BYTES
    volatile uint16_t pair = *(const volatile uint16_t *)(const void *)(half + x0 / 2 * 2);
    return ((const volatile uint8_t *)&pair)[x0 % 2];
#else
    return half[x0];
#endif
}

PLAIN_CALL(CALL) {
    (void)method, (void)m, (void)r3, (void)b, (void)table_length, (void)scratch_length;
    size_t turns = (size_t)1 << n, first_input = r1 ^ OTHER_INPUT, first_output = s1 ^ OTHER_OUTPUT;
    BARRIER(first_input);
    BARRIER(first_output);
    for (size_t a = 0; a < turns; a++) scratch[a] = (uint8_t)(table[a ^ first_input] ^ first_output);
#ifdef ONE_PASS
    return (uint8_t)(answer(scratch, x0 ^ r2) ^ s2);
#else
    size_t second_input = r2 ^ OTHER_INPUT, second_output = s2 ^ OTHER_OUTPUT; // 0 where it is added already
    for (size_t a = 0; a < turns; a++) scratch[turns + a] = (uint8_t)(scratch[a ^ second_input] ^ second_output);
    return answer(scratch + turns, x0);
#endif
}
