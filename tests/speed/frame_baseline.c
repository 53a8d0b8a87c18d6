// A frame of AES-128 in three shares in C, as a careful engineer would write it without proofs: see baseline.h. Compiled with -DGUARDED.
// A share of the state or of a round key is four columns, each a word of 32 bits with row 0 in its lowest byte (of a little-endian machine).
#include "baseline.h"
#include "barrier.h"
#include <aes.h>
#include <string.h>

enum { SHARES = 3, COLUMNS = 4, ROUNDS = 10, RANDOM_LENGTH = 632, SCRATCH_LENGTH = 256 };

typedef uint32_t block[COLUMNS];

// The masks of the next lookup, and where it works.
struct lent {
    const uint8_t *masks;
    uint8_t *scratch;
};

static void clear(uint8_t *scratch) {
    memset(scratch, 0, SCRATCH_LENGTH);
}

// The answer of a lookup by method 2, on scratch that it clears first. Inlined, it takes an instruction more a turn: the compiler then knows
// that the masks are bytes, and extends each entry.
__attribute__((noinline)) static uint32_t look_up(uint32_t x0, uint32_t r1, uint32_t r2, uint32_t s1, uint32_t s2, uint32_t r3,
                                                  uint8_t *scratch) {
    clear(scratch);
    uint32_t mixed = r1 ^ r3;
    BARRIER(mixed);
    mixed ^= r2;
    for (uint32_t a = 0; a < 256; a++) {
        uint32_t entry = aes_sbox[x0 ^ a] ^ s1;
        BARRIER(entry);
        scratch[a ^ mixed] = (uint8_t)(entry ^ s2);
    }
    return scratch[r3];
}

static uint32_t byte(uint32_t word, int row) {
    return word >> 8 * row & 255;
}

// Looks up the four bytes of a word, and replaces its shares by those of the entries.
static void substitute(uint32_t word[SHARES], struct lent *lent) {
    uint32_t found[SHARES] = {0, 0, 0};
    for (int row = 0; row < 4; row++) {
        uint32_t s1 = lent->masks[0], s2 = lent->masks[1], r3 = lent->masks[2];
        found[0] |= look_up(byte(word[0], row), byte(word[1], row), byte(word[2], row), s1, s2, r3, lent->scratch) << 8 * row;
        found[1] |= s1 << 8 * row;
        found[2] |= s2 << 8 * row;
        lent->masks += 3;
    }
    memcpy(word, found, sizeof found);
}

static uint32_t rotated(uint32_t word, int bits) {
    return word >> bits | word << (32 - bits);
}

// Twice each byte of a word in GF(2^8).
static uint32_t doubled(uint32_t word) {
    uint32_t high = word & 0x80808080;
    return (word ^ high) << 1 ^ (high >> 7) * 0x1b;
}

// The next round key; the round constant goes to the first share.
static void next_key(block key[SHARES], uint8_t constant, struct lent *lent) {
    uint32_t word[SHARES];
    for (int share = 0; share < SHARES; share++) word[share] = rotated(key[share][3], 8);
    substitute(word, lent);
    word[0] ^= constant;
    for (int share = 0; share < SHARES; share++) {
        for (int column = 0; column < COLUMNS; column++) word[share] = key[share][column] ^= word[share];
    }
}

static void substitute_state(block state[SHARES], struct lent *lent) {
    for (int column = 0; column < COLUMNS; column++) {
        uint32_t word[SHARES] = {state[0][column], state[1][column], state[2][column]};
        substitute(word, lent);
        for (int share = 0; share < SHARES; share++) state[share][column] = word[share];
    }
}

static void shift_rows(block state) {
    block before;
    memcpy(before, state, sizeof before);
    for (int column = 0; column < COLUMNS; column++) {
        state[column] = (before[column] & 0xff) | (before[(column + 1) % 4] & 0xff00) | (before[(column + 2) % 4] & 0xff0000) |
                        (before[(column + 3) % 4] & 0xff000000);
    }
}

static void mix_columns(block state) {
    for (int column = 0; column < COLUMNS; column++) {
        uint32_t word = state[column], next = rotated(word, 8), both = word ^ next;
        state[column] = doubled(both) ^ next ^ rotated(both, 16);
    }
}

static void add(block state, const block other) {
    for (int column = 0; column < COLUMNS; column++) state[column] ^= other[column];
}

static void encrypt(block state[SHARES], block key[SHARES], struct lent lent) {
    uint8_t constant = 1;
    for (int share = 0; share < SHARES; share++) add(state[share], key[share]);
    for (int round = 1; round <= ROUNDS; round++) {
        next_key(key, constant, &lent);
        constant = (uint8_t)doubled(constant);
        substitute_state(state, &lent);
        for (int share = 0; share < SHARES; share++) {
            shift_rows(state[share]);
            if (round < ROUNDS) mix_columns(state[share]);
            add(state[share], key[share]);
        }
    }
    clear(lent.scratch);
}

FRAME_CALL(guarded_frame) {
    block state[SHARES], key[SHARES];
    if (random_length != RANDOM_LENGTH) return 26;
    if (baseline_screen(random, random_length) != UINT64_MAX) return 27;
    if (scratch_length < SCRATCH_LENGTH) return 13;
    memcpy(state[0], plaintext, 16);
    memcpy(state[1], random, 16);
    memcpy(state[2], random + 16, 16);
    add(state[0], state[1]);
    add(state[0], state[2]);
    memcpy(key[0], key1, 16);
    memcpy(key[1], key2, 16);
    memcpy(key[2], key3, 16);
    encrypt(state, key, (struct lent){random + 32, scratch});
    memcpy(share1, state[0], 16);
    memcpy(share2, state[1], 16);
    memcpy(share3, state[2], 16);
    return 0;
}
