// Bytes that look random and are the same in every run of the audit.
#include "random.h"

uint8_t random_byte(void) {
    static uint64_t state = 1181783497276652981u; // xorshift
    state ^= state << 13, state ^= state >> 7, state ^= state << 17;
    return (uint8_t)(state * 0x2545f4914f6cdd1du >> 56);
}
