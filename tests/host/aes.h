// AES-128 as FIPS 197 has it, without shares: what the shares of a frame join to.
#ifndef AES_H
#define AES_H

#include <stdint.h>

// The S-box, as Figure 7 prints it.
extern const uint8_t aes_sbox[256];

// Twice a byte in GF(2^8).
uint8_t aes_doubled(uint8_t byte);

void aes_encrypt(const uint8_t plaintext[16], const uint8_t key[16], uint8_t ciphertext[16]);

#endif
