// A frame in C, of two rounds, as a careful engineer would write it without proofs. Compiled with -DFRAME=NAME and one of:
//   -DGUARDED           with barriers, so that the compiler keeps exclusive ors apart; the audit must pass it
//   (nothing)           without; the audit must catch it
//   -DGUARDED -DJOINED  and in the last round two shares of a byte are joined
//   -DGUARDED -DBESIDE  and there two shares are read at once
#include <stddef.h>
#include <stdint.h>
#include <string.h>

enum { BLOCK = 16, SHARES = 3, LAST = 1, TABLE = 256 };

#ifdef GUARDED
#define BARRIER(value) __asm__ volatile("" : "+r"(value))
#else
#define BARRIER(value) (void)0
#endif

extern uint8_t sbox_table[TABLE];
uint32_t FRAME(const uint8_t plaintext[BLOCK], const uint8_t key1[BLOCK], const uint8_t key2[BLOCK], const uint8_t key3[BLOCK],
               const uint8_t *random, size_t random_length, uint8_t *scratch, size_t scratch_length, uint8_t share1[BLOCK],
               uint8_t share2[BLOCK], uint8_t share3[BLOCK]);

struct share {
    uint8_t bytes[BLOCK];
};

struct shares {
    struct share share[SHARES];
};

static uint8_t doubled(uint8_t b) {
    return (uint8_t)(b << 1 ^ (b >> 7) * 0x1b);
}

static void mix(struct share *state) {
    for (int c = 0; c < BLOCK; c += 4) {
        uint8_t *w = state->bytes + c, a = w[0], b = w[1], d = w[2], e = w[3];
        w[0] = (uint8_t)(doubled(a) ^ doubled(b) ^ b ^ d ^ e);
        w[1] = (uint8_t)(doubled(b) ^ doubled(d) ^ d ^ e ^ a);
        w[2] = (uint8_t)(doubled(d) ^ doubled(e) ^ e ^ a ^ b);
        w[3] = (uint8_t)(doubled(e) ^ doubled(a) ^ a ^ b ^ d);
    }
}

static void add(struct share *state, const struct share *key) {
    for (int i = 0; i < BLOCK; i++) state->bytes[i] ^= key->bytes[i];
}

static void shift_rows(struct share *state) {
    struct share before = *state;
    for (int i = 0; i < BLOCK; i++) state->bytes[i] = before.bytes[(i + 4 * (i % 4)) % BLOCK];
}

// A lookup by method 2: the second and third share become the two masks of the output.
static void look_up(uint8_t *x0, uint8_t *r1, uint8_t *r2, const uint8_t masks[3], uint8_t *scratch) {
    size_t r3 = masks[2], mixed = *r1 ^ r3;
    memset(scratch, 0, TABLE);
    BARRIER(mixed);
    mixed ^= *r2;
    for (size_t a = 0; a < TABLE; a++) {
        uint8_t entry = sbox_table[*x0 ^ a] ^ masks[0];
        BARRIER(entry);
        scratch[a ^ mixed] = entry ^ masks[1];
    }
    *x0 = scratch[r3], *r1 = masks[0], *r2 = masks[1];
}

static void substitute(struct shares *s, const uint8_t *random, uint8_t *scratch) {
    for (int i = 0; i < BLOCK; i++)
        look_up(&s->share[0].bytes[i], &s->share[1].bytes[i], &s->share[2].bytes[i], random + 3 * i, scratch);
}

static void next_key(struct shares *key, uint8_t constant, const uint8_t *random, uint8_t *scratch) {
    uint8_t word[SHARES][4];
    for (int k = 0; k < SHARES; k++)
        for (int i = 0; i < 4; i++) word[k][i] = key->share[k].bytes[12 + (i + 1) % 4];
    for (int i = 0; i < 4; i++) look_up(&word[0][i], &word[1][i], &word[2][i], random + 3 * i, scratch);
    word[0][0] ^= constant;
    for (int k = 0; k < SHARES; k++)
        for (int i = 0; i < BLOCK; i++) key->share[k].bytes[i] ^= i < 4 ? word[k][i] : key->share[k].bytes[i - 4];
}

// What the last two variants do with the shares of a late round.
static void misuse(const struct shares *s, uint8_t *scratch) {
#ifdef JOINED
    scratch[0] = s->share[1].bytes[7] ^ s->share[2].bytes[7];
#elif defined BESIDE
    scratch[0] = s->share[1].bytes[7], scratch[1] = s->share[2].bytes[7];
    *(volatile uint16_t *)(void *)scratch;
#endif
    (void)s, (void)scratch;
}

uint32_t FRAME(const uint8_t plaintext[BLOCK], const uint8_t key1[BLOCK], const uint8_t key2[BLOCK], const uint8_t key3[BLOCK],
               const uint8_t *random, size_t random_length, uint8_t *scratch, size_t scratch_length, uint8_t share1[BLOCK],
               uint8_t share2[BLOCK], uint8_t share3[BLOCK]) {
    struct shares key, s;
    if (random_length != 632 || scratch_length < TABLE) return 26;
    memcpy(key.share[0].bytes, key1, BLOCK), memcpy(key.share[1].bytes, key2, BLOCK), memcpy(key.share[2].bytes, key3, BLOCK);
    memcpy(s.share[1].bytes, random, BLOCK), memcpy(s.share[2].bytes, random + BLOCK, BLOCK);
    for (int i = 0; i < BLOCK; i++) s.share[0].bytes[i] = plaintext[i] ^ random[i] ^ random[BLOCK + i];
    for (int k = 0; k < SHARES; k++) add(&s.share[k], &key.share[k]);
    for (int round = 0; round <= LAST; round++) {
        const uint8_t *masks = random + 32 + 60 * round;
        next_key(&key, (uint8_t)(1 << round), masks, scratch);
        substitute(&s, masks + 12, scratch);
        for (int k = 0; k < SHARES; k++) {
            shift_rows(&s.share[k]);
            if (round < LAST) mix(&s.share[k]);
            add(&s.share[k], &key.share[k]);
        }
    }
    misuse(&s, scratch);
    memset(scratch, 0, TABLE);
    memcpy(share1, s.share[0].bytes, BLOCK), memcpy(share2, s.share[1].bytes, BLOCK), memcpy(share3, s.share[2].bytes, BLOCK);
    return 0;
}
