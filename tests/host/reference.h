// The plain call in plain C, written from the requirements alone, to compare the proved one with.
#ifndef REFERENCE_H
#define REFERENCE_H

#include <stddef.h>
#include <stdint.h>

// The numbers and the table that a call takes.
struct lookup {
    uint32_t method, n, m, x0, r1, r2, s1, s2, r3, b;
    const uint8_t *table;
    size_t table_length;
};

// The refusal * 256 + the share; scratch is left as the call leaves it.
uint16_t reference_plain_call(struct lookup call, uint8_t *scratch, size_t scratch_length);

#endif
