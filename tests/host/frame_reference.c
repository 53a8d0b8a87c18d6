// A whole AES-128 frame in plain C, written from FIPS 197 and the requirements alone, without looking at the code. It is made to be read,
// not to be fast or to hide anything. A byte is an array of its three shares; all round keys are made before the first round.
#include "frame_reference.h"

#include "aes.h"
#include "screen_reference.h"

#include <string.h>

enum { SHARES = 3, ROUNDS = 10, BLOCK = 16, WORDS = 4 * (ROUNDS + 1), RANDOM_LENGTH = 632, SCRATCH_LENGTH = 256 };

// What the lookups of a frame are lent.
struct lent {
    const uint8_t *random;
    uint8_t *scratch;
};

static void clear(struct lent lent) {
    memset(lent.scratch, 0, SCRATCH_LENGTH);
}

// Lookup j of a round, by method 2: replaces a byte's shares by those of its entry.
static void look_up(uint8_t byte[SHARES], int round, int j, struct lent lent) {
    const uint8_t *masks = lent.random + 32 + 3 * (20 * (round - 1) + j);
    uint8_t x0 = byte[0], r1 = byte[1], r2 = byte[2], s1 = masks[0], s2 = masks[1], r3 = masks[2];
    uint8_t r_prime = (r1 ^ r3) ^ r2;
    clear(lent);
    for (int a = 0; a < 256; a++) {
        lent.scratch[a ^ r_prime] = (aes_sbox[x0 ^ a] ^ s1) ^ s2;
    }
    byte[0] = lent.scratch[r3];
    byte[1] = s1;
    byte[2] = s2;
}

static uint8_t round_constant(int round) {
    return round == 1 ? 1 : aes_doubled(round_constant(round - 1));
}

// RotWord, SubWord and the round constant.
static void substitute_word(uint8_t word[4][SHARES], int round, struct lent lent) {
    uint8_t before[4][SHARES];
    memcpy(before, word, sizeof before);
    for (int j = 0; j < 4; j++) {
        memcpy(word[j], before[(j + 1) % 4], SHARES);
        look_up(word[j], round, j, lent);
    }
    word[0][0] ^= round_constant(round);
}

// Words 0 to 3 are the key; the others are made of them.
static void expand_key(uint8_t words[WORDS][4][SHARES], struct lent lent) {
    for (int i = 4; i < WORDS; i++) {
        memcpy(words[i], words[i - 1], sizeof words[i]);
        if (i % 4 == 0) {
            substitute_word(words[i], i / 4, lent);
        }
        for (int place = 0; place < 4 * SHARES; place++) {
            words[i][place / SHARES][place % SHARES] ^= words[i - 4][place / SHARES][place % SHARES];
        }
    }
}

static void shift_rows(uint8_t state[BLOCK][SHARES]) {
    uint8_t before[BLOCK][SHARES];
    memcpy(before, state, sizeof before);
    for (int r = 0; r < 4; r++) {
        for (int c = 0; c < 4; c++) {
            memcpy(state[r + 4 * c], before[r + 4 * ((c + r) % 4)], SHARES);
        }
    }
}

static uint8_t tripled(uint8_t byte) {
    return aes_doubled(byte) ^ byte;
}

static void mix_columns(uint8_t state[BLOCK][SHARES]) {
    uint8_t before[BLOCK][SHARES];
    memcpy(before, state, sizeof before);
    for (int place = 0; place < BLOCK; place++) {
        int r = place % 4;
        uint8_t(*column)[SHARES] = before + place - r;
        for (int share = 0; share < SHARES; share++) {
            state[place][share] = aes_doubled(column[r][share]) ^ tripled(column[(r + 1) % 4][share]) ^ column[(r + 2) % 4][share] ^
                                  column[(r + 3) % 4][share];
        }
    }
}

static void add_round_key(uint8_t state[BLOCK][SHARES], uint8_t words[WORDS][4][SHARES], int round) {
    for (int place = 0; place < BLOCK; place++) {
        for (int share = 0; share < SHARES; share++) {
            state[place][share] ^= words[4 * round + place / 4][place % 4][share];
        }
    }
}

static void encrypt(uint8_t state[BLOCK][SHARES], uint8_t words[WORDS][4][SHARES], struct lent lent) {
    expand_key(words, lent);
    add_round_key(state, words, 0);
    for (int round = 1; round <= ROUNDS; round++) {
        for (int place = 0; place < BLOCK; place++) {
            look_up(state[place], round, 4 + place, lent);
        }
        shift_rows(state);
        if (round < ROUNDS) {
            mix_columns(state);
        }
        add_round_key(state, words, round);
    }
    clear(lent);
}

static uint32_t refusal(const uint8_t *random, size_t random_length, size_t scratch_length) {
    if (random_length != RANDOM_LENGTH) {
        return 26;
    }
    if (reference_screen(random, random_length) != UINT64_MAX) {
        return 27;
    }
    if (scratch_length < SCRATCH_LENGTH) {
        return 13;
    }
    return 0;
}

uint32_t reference_encrypt_frame(const uint8_t plaintext[16], const uint8_t key1[16], const uint8_t key2[16],
                                 const uint8_t key3[16], const uint8_t *random, size_t random_length, uint8_t *scratch,
                                 size_t scratch_length, uint8_t share1[16], uint8_t share2[16], uint8_t share3[16]) {
    uint32_t number = refusal(random, random_length, scratch_length);
    if (number != 0) {
        return number;
    }
    uint8_t state[BLOCK][SHARES], words[WORDS][4][SHARES];
    for (int place = 0; place < BLOCK; place++) {
        uint8_t r1 = random[place], r2 = random[16 + place];
        memcpy(state[place], (const uint8_t[]){(plaintext[place] ^ r1) ^ r2, r1, r2}, SHARES);
        memcpy(words[place / 4][place % 4], (const uint8_t[]){key1[place], key2[place], key3[place]}, SHARES);
    }
    encrypt(state, words, (struct lent){random, scratch});
    for (int place = 0; place < BLOCK; place++) {
        share1[place] = state[place][0];
        share2[place] = state[place][1];
        share3[place] = state[place][2];
    }
    return 0;
}
