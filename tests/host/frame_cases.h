// Frames with the shares that the model finds: tests/model/frame_cases.py writes them as C.
#ifndef FRAME_CASES_H
#define FRAME_CASES_H

#include <stddef.h>
#include <stdint.h>

struct frame_case {
    uint8_t plaintext[16], key[3][16], random[632], share[3][16];
};

extern const struct frame_case frame_cases[];
extern const size_t frame_case_count;
// r' of each lookup of the last frame, of which no two have the same r3.
extern const uint8_t last_r_primes[200];

#endif
