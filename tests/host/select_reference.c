// The choice of one half by a masked bit in plain C, written from the requirements alone: Algorithm 4, step by step. It is made to be read,
// not to be silent.
#include "select_reference.h"

// H0 is the most significant half of a word, H1 the least significant.
static uint8_t half(uint32_t which, uint32_t word, uint32_t width) {
    uint32_t halves = (uint32_t)1 << width;
    return (uint8_t)(which == 0 ? word / halves : word % halves);
}

static uint32_t refusal(uint32_t width, const uint32_t words[3], const uint32_t bits[4], const uint32_t masks[2]) {
    if (width < 1 || width > 8) {
        return 20;
    }
    for (int each = 0; each < 3; each++) {
        if (words[each] >= (uint32_t)1 << 2 * width) {
            return 21;
        }
    }
    for (int each = 0; each < 4; each++) {
        if (bits[each] >= 2) {
            return 21;
        }
    }
    return masks[0] >= (uint32_t)1 << width || masks[1] >= (uint32_t)1 << width ? 21 : 0;
}

uint32_t reference_select(uint32_t width, uint32_t z0, uint32_t z1, uint32_t z2, uint32_t c0, uint32_t c1, uint32_t c2, uint32_t t1,
                          uint32_t t2, uint32_t b, uint8_t *share0, uint8_t *share1, uint8_t *share2) {
    const uint32_t words[] = {z0, z1, z2}, bits[] = {c0, c1, c2, b}, masks[] = {t1, t2};
    uint8_t a_register[2], b_register[2], c_register[2];
    uint32_t refused = refusal(width, words, bits, masks), c3 = c1 ^ b ^ c2;
    if (refused != 0) {
        return refused;
    }
    a_register[c3] = (uint8_t)(half(c0, z0, width) ^ t1);
    b_register[c3] = (uint8_t)(half(c0, z1, width) ^ t2);
    c_register[c3] = (uint8_t)(half(c0, z2, width) ^ t1 ^ t2);
    a_register[1 - c3] = (uint8_t)(half(1 - c0, z0, width) ^ t1);
    b_register[1 - c3] = (uint8_t)(half(1 - c0, z1, width) ^ t2);
    c_register[1 - c3] = (uint8_t)(half(1 - c0, z2, width) ^ t1 ^ t2);
    *share0 = a_register[b];
    *share1 = b_register[b];
    *share2 = c_register[b];
    return 0;
}
