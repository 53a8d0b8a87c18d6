// The choice of one half by a masked bit in plain C, written from the requirements alone, to compare the proved one with.
#ifndef SELECT_REFERENCE_H
#define SELECT_REFERENCE_H

#include <stdint.h>

// The refusal. Accepted, the three results are A_b, B_b and C_b of Algorithm 4. The parameters are those of the exported call.
uint32_t reference_select(uint32_t width, uint32_t z0, uint32_t z1, uint32_t z2, uint32_t c0, uint32_t c1, uint32_t c2, uint32_t t1,
                          uint32_t t2, uint32_t b, uint8_t *share0, uint8_t *share1, uint8_t *share2);

#endif
