// A frame under several keys: its calls, and whether they can be judged. The plaintext comes unshared and is one and the same.
#include "frame.h"
#include "aes.h"
#include "columns.h"
#include "copies.h"
#include "parts.h"
#include "random.h"

#include <stdbool.h>
#include <stdio.h>
#include <string.h>

enum { SHARES = 3, RANDOM = 632, CLEARED = 256, SCRATCH = 300, MOST_STEPS = 1 << 20, USED_BYTE = 0xa5 };

static const uint8_t plaintext[BLOCK] = {0x00, 0x11, 0x22, 0x33, 0x44, 0x55, 0x66, 0x77, 0x88, 0x99, 0xaa, 0xbb, 0xcc, 0xdd, 0xee, 0xff};
static uint8_t keys[MOST_INPUTS][BLOCK], key_shares[SHARES][BLOCK], random_bytes[RANDOM], scratch[SCRATCH], shares[SHARES][BLOCK];

// The first key is that of FIPS 197's example, the others are drawn. False where the audit's own AES misses the example.
static bool choose_keys(size_t count) {
    static const uint8_t expected[BLOCK] = {0x69, 0xc4, 0xe0, 0xd8, 0x6a, 0x7b, 0x04, 0x30, 0xd8, 0xcd, 0xb7, 0x80, 0x70, 0xb4, 0xc5, 0x5a};
    uint8_t ciphertext[BLOCK];
    for (size_t key = 0; key < count; key++)
        for (int i = 0; i < BLOCK; i++) keys[key][i] = key ? random_byte() : (uint8_t)i;
    make_sbox();
    encrypt_block(ROUNDS, keys[0], plaintext, ciphertext);
    return !memcmp(ciphertext, expected, BLOCK);
}

static void choose_masks(const uint8_t key[BLOCK]) {
    for (int i = 0; i < BLOCK; i++) {
        key_shares[1][i] = random_byte(), key_shares[2][i] = random_byte();
        key_shares[0][i] = key[i] ^ key_shares[1][i] ^ key_shares[2][i];
    }
    for (int i = 0; i < RANDOM; i++) random_bytes[i] = random_byte();
}

// The frame is accepted, its random bytes with it; the shares join to the block, and the scratch is cleared.
static bool right_answer(unsigned rounds, const uint8_t key[BLOCK], uint64_t result) {
    static const uint8_t zeros[CLEARED];
    uint8_t expected[BLOCK], joined[BLOCK];
    encrypt_block(rounds, key, plaintext, expected);
    for (int i = 0; i < BLOCK; i++) joined[i] = shares[0][i] ^ shares[1][i] ^ shares[2][i];
    return (uint32_t)result == 0 && !memcmp(joined, expected, BLOCK) && !memcmp(scratch, zeros, CLEARED);
}

// Makes one call; NULL, or why it cannot be judged.
static const char *one_call(runner *run, struct trace *trace, const struct frame *frame, const uint8_t key[BLOCK], size_t length) {
    struct call call = {frame->code,
                        {(uintptr_t)plaintext, (uintptr_t)key_shares[0], (uintptr_t)key_shares[1], (uintptr_t)key_shares[2],
                         (uintptr_t)random_bytes, RANDOM, (uintptr_t)scratch, length, (uintptr_t)shares[0], (uintptr_t)shares[1],
                         (uintptr_t)shares[2]},
                        {{"plaintext", plaintext, BLOCK},
                         {"first share of the key", key_shares[0], BLOCK},
                         {"second share of the key", key_shares[1], BLOCK},
                         {"third share of the key", key_shares[2], BLOCK},
                         {"random bytes", random_bytes, RANDOM},
                         {"scratch", scratch, SCRATCH},
                         {"first share", shares[0], BLOCK},
                         {"second share", shares[1], BLOCK},
                         {"third share", shares[2], BLOCK}}};
    uint64_t result;
    memset(scratch, USED_BYTE, sizeof scratch);
    memset(shares, USED_BYTE, sizeof shares);
    const char *trouble = run(trace, &call, &result);
    if (!trouble && watches(ANSWERS_PART) && !right_answer(frame->rounds, key, result)) trouble = "wrong answer";
    return trouble;
}

// The first call is stepped through, and run by copies too: both must note the same.
static const char *first_call(struct trace *trace, const struct frame *frame, const uint8_t key[BLOCK]) {
    const char *trouble = one_call(step_through, trace, frame, key, CLEARED);
    size_t count = trace->count;
    if (!trouble) trouble = one_call(run_copies, trace, frame, key, CLEARED);
    if (trouble) return trouble;
    return noted_again(trace, count) || !watches(COPIES_PART) ? NULL : "copied instructions do otherwise";
}

// Makes all calls, with scratch that is just long enough and longer, in turns; whether they can be judged. The way must not depend on that.
static bool make_calls(const struct frame *frame, size_t count, struct trace *trace, struct columns *columns) {
    for (size_t call = 0; call < count * FRAME_CHOICES; call++) {
        const uint8_t *key = keys[call / FRAME_CHOICES];
        choose_masks(key);
        size_t length = call % 2 ? SCRATCH : CLEARED;
        const char *trouble = call ? one_call(run_copies, trace, frame, key, length) : first_call(trace, frame, key);
        if (trouble) {
            printf("    %s: key %lu, choice %lu\n", trouble, (unsigned long)(call / FRAME_CHOICES), (unsigned long)(call % FRAME_CHOICES));
            return false;
        }
        add_call(columns, trace);
    }
    return true;
}

int audit_frame(const struct frame *frame, size_t count) {
    struct trace trace;
    struct columns *columns = start_columns(count, FRAME_CHOICES);
    int found = UNKNOWN;
    printf("%s, a whole frame, %lu keys with %d choices each, linear\n", frame->name, (unsigned long)count, FRAME_CHOICES);
    start_trace(&trace, (struct division){1, 1}, MOST_STEPS);
    if (!choose_keys(count))
        printf("    the audit's own AES is wrong\n");
    else if (make_calls(frame, count, &trace, columns)) {
        printf("    %lu calls of %lu instructions\n", (unsigned long)(count * FRAME_CHOICES), (unsigned long)trace.steps);
        found = leaking_columns(columns, trace.addresses) ? LEAKS : SILENT;
    }
    end_trace(&trace);
    end_columns(columns);
    return found;
}
