// The calls in C, to measure against and to try the audit on: the same algorithms with the same checks, and the loops alone.
// baseline_* is C as it comes; guarded_* is the same with compiler barriers between exclusive ors with masks.
#ifndef BASELINE_H
#define BASELINE_H

#include <stddef.h>
#include <stdint.h>

#define PLAIN_CALL(name)                                                                                                        \
    uint16_t name(uint32_t method, uint32_t n, uint32_t m, uint32_t x0, uint32_t r1, uint32_t r2, uint32_t s1, uint32_t s2,      \
                  uint32_t r3, uint32_t b, const uint8_t *table, size_t table_length, uint8_t *scratch, size_t scratch_length)
#define LOGGED_CALL(name)                                                                                                       \
    uint16_t name(uint32_t method, uint32_t n, uint32_t m, uint32_t x0, uint32_t r1, uint32_t r2, uint32_t s1, uint32_t s2,      \
                  uint32_t r3, uint32_t b, const uint8_t *table, size_t table_length, uint8_t *scratch, size_t scratch_length,   \
                  uint32_t *log, size_t log_length)

// refusal * 256 + share
PLAIN_CALL(baseline_plain_call);
PLAIN_CALL(guarded_plain_call);
LOGGED_CALL(baseline_logged_call);
LOGGED_CALL(guarded_logged_call);

// the share; nothing is checked
PLAIN_CALL(baseline_bare_call);
PLAIN_CALL(guarded_bare_call);

// The start of the first faulty window, or all ones.
uint64_t baseline_screen(const uint8_t *run, size_t length);

// The frame, with barriers only. The parameters and the refusal are those of the exported call.
#define FRAME_CALL(name)                                                                                                        \
    uint32_t name(const uint8_t plaintext[16], const uint8_t key1[16], const uint8_t key2[16], const uint8_t key3[16],          \
                  const uint8_t *random, size_t random_length, uint8_t *scratch, size_t scratch_length, uint8_t share1[16],     \
                  uint8_t share2[16], uint8_t share3[16])
FRAME_CALL(guarded_frame);

// The choice of one half by a masked bit. The parameters and the refusal are those of the exported call; the logged one returns the refusal too.
#define SELECT_CALL(name)                                                                                                       \
    uint32_t name(uint32_t width, uint32_t z0, uint32_t z1, uint32_t z2, uint32_t c0, uint32_t c1, uint32_t c2, uint32_t t1,     \
                  uint32_t t2, uint32_t b, uint8_t *share0, uint8_t *share1, uint8_t *share2)
#define LOGGED_SELECT_CALL(name)                                                                                                \
    uint32_t name(uint32_t width, uint32_t z0, uint32_t z1, uint32_t z2, uint32_t c0, uint32_t c1, uint32_t c2, uint32_t t1,     \
                  uint32_t t2, uint32_t b, uint32_t *log, size_t log_length)
SELECT_CALL(baseline_select);
SELECT_CALL(guarded_select);

// Calls of nothing, with the parameters of each kind (nothing.c).
PLAIN_CALL(nothing_plain_call);
LOGGED_CALL(nothing_logged_call);
FRAME_CALL(nothing_frame);
SELECT_CALL(nothing_select);
uint64_t nothing_screen(const uint8_t *run, size_t length);

#endif
