// A whole AES-128 frame in plain C, written from FIPS 197 and the requirements alone, to compare the proved one with.
#ifndef FRAME_REFERENCE_H
#define FRAME_REFERENCE_H

#include <stddef.h>
#include <stdint.h>

// The refusal; the three shares and scratch are left as the call leaves them. The parameters are those of the exported call.
uint32_t reference_encrypt_frame(const uint8_t plaintext[16], const uint8_t key1[16], const uint8_t key2[16],
                                 const uint8_t key3[16], const uint8_t *random, size_t random_length, uint8_t *scratch,
                                 size_t scratch_length, uint8_t share1[16], uint8_t share2[16], uint8_t share3[16]);

#endif
