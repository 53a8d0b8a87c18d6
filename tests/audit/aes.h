// AES-128 in the open, from FIPS 197: what a frame's shares must join to.
#ifndef AES_H
#define AES_H

#include <stdint.h>

enum { BLOCK = 16, ROUNDS = 10, SBOX = 256 };

// The S-box; first it must be made.
extern uint8_t sbox_table[SBOX];
void make_sbox(void);

// With fewer rounds the last of them is still without mixing; with none, the key is added and that is all.
void encrypt_block(unsigned rounds, const uint8_t key[BLOCK], const uint8_t plaintext[BLOCK], uint8_t ciphertext[BLOCK]);

#endif
