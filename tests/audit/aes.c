// AES-128, plainly. The S-box is made by its rule.
#include "aes.h"

#include <string.h>

uint8_t sbox_table[SBOX];

static uint8_t doubled(uint8_t b) {
    return (uint8_t)(b << 1 ^ (b >> 7) * 0x1b);
}

static uint8_t product(uint8_t a, uint8_t b) {
    uint8_t sum = 0;
    for (; b; b >>= 1, a = doubled(a))
        if (b & 1) sum ^= a;
    return sum;
}

// The inverse is the 254th power.
void make_sbox(void) {
    for (int b = 0; b < SBOX; b++) {
        uint8_t inverse = 1, sum = 0x63;
        for (int i = 0; i < 254; i++) inverse = product(inverse, (uint8_t)b);
        for (int turn = 0; turn < 5; turn++) sum ^= (uint8_t)(inverse << turn | inverse >> (8 - turn));
        sbox_table[b] = sum;
    }
}

static void next_key(uint8_t key[BLOCK], uint8_t constant) {
    for (int i = 0; i < 4; i++) key[i] ^= sbox_table[key[12 + (i + 1) % 4]];
    key[0] ^= constant;
    for (int i = 4; i < BLOCK; i++) key[i] ^= key[i - 4];
}

static void substitute_and_shift(uint8_t state[BLOCK]) {
    uint8_t before[BLOCK];
    memcpy(before, state, BLOCK);
    for (int i = 0; i < BLOCK; i++) state[i] = sbox_table[before[(i + 4 * (i % 4)) % BLOCK]];
}

static void mix(uint8_t column[4]) {
    uint8_t before[4];
    memcpy(before, column, 4);
    for (int i = 0; i < 4; i++)
        column[i] = product(before[i], 2) ^ product(before[(i + 1) % 4], 3) ^ before[(i + 2) % 4] ^ before[(i + 3) % 4];
}

void encrypt_block(unsigned rounds, const uint8_t key[BLOCK], const uint8_t plaintext[BLOCK], uint8_t ciphertext[BLOCK]) {
    uint8_t round_key[BLOCK], state[BLOCK], constant = 1;
    memcpy(round_key, key, BLOCK);
    for (int i = 0; i < BLOCK; i++) state[i] = plaintext[i] ^ key[i];
    for (unsigned round = 1; round <= rounds; round++, constant = doubled(constant)) {
        next_key(round_key, constant);
        substitute_and_shift(state);
        for (int c = 0; c < BLOCK && round < rounds; c += 4) mix(state + c);
        for (int i = 0; i < BLOCK; i++) state[i] ^= round_key[i];
    }
    memcpy(ciphertext, state, BLOCK);
}
