// Numbers that look random and are the same in every run of a test, and powers of two.
#include "numbers.h"

// xorshift
uint32_t below(uint32_t limit) {
    static uint32_t state = 2463534242u;
    state ^= state << 13;
    state ^= state >> 17;
    state ^= state << 5;
    return state % limit;
}

uint32_t power(uint32_t exponent) {
    return (uint32_t)1 << exponent;
}
