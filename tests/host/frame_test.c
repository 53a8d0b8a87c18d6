// Compares the exported frame with the reference, with FIPS 197's own figures and with the model's shares. Run it with a group's name for
// that group alone. Prints a line of counts for each group of frames and the first that differ; exits with 1 if any differs, or if
// comparisons are missing. The twentieth difference ends it.
#include "aes.h"
#include "cippazhey.h"
#include "frame_buffers.h"
#include "frame_faults.h"
#include "frame_reference.h"
#include "frame_trial.h"
#include "frame_watch.h"

#include <string.h>

// A control may do with fewer.
#ifndef RANDOM_FRAMES
#define RANDOM_FRAMES 10000
#endif
#if RANDOM_FRAMES < 1
#error no random frame is tried
#endif

enum { MASKINGS = 50, STORED = 32 };

// FIPS 197, appendices B and C.1: plaintext, key and ciphertext.

static const uint8_t figures[2][3][BLOCK] = {
    {{0x32, 0x43, 0xf6, 0xa8, 0x88, 0x5a, 0x30, 0x8d, 0x31, 0x31, 0x98, 0xa2, 0xe0, 0x37, 0x07, 0x34},
     {0x2b, 0x7e, 0x15, 0x16, 0x28, 0xae, 0xd2, 0xa6, 0xab, 0xf7, 0x15, 0x88, 0x09, 0xcf, 0x4f, 0x3c},
     {0x39, 0x25, 0x84, 0x1d, 0x02, 0xdc, 0x09, 0xfb, 0xdc, 0x11, 0x85, 0x97, 0x19, 0x6a, 0x0b, 0x32}},
    {{0x00, 0x11, 0x22, 0x33, 0x44, 0x55, 0x66, 0x77, 0x88, 0x99, 0xaa, 0xbb, 0xcc, 0xdd, 0xee, 0xff},
     {0x00, 0x01, 0x02, 0x03, 0x04, 0x05, 0x06, 0x07, 0x08, 0x09, 0x0a, 0x0b, 0x0c, 0x0d, 0x0e, 0x0f},
     {0x69, 0xc4, 0xe0, 0xd8, 0x6a, 0x7b, 0x04, 0x30, 0xd8, 0xcd, 0xb7, 0x80, 0x70, 0xb4, 0xc5, 0x5a}},
};

static bool same(const uint8_t block[BLOCK], const uint8_t other[BLOCK]) {
    return memcmp(block, other, BLOCK) == 0;
}

// Where each second mask is the first, they cancel: the first share is the ciphertext, and the others are alike.
static void masks_cancelled(frame_call *call, const uint8_t figure[3][BLOCK], const char *what) {
    struct frame_trial trial = accepted_frame();
    memcpy(trial.key[2], trial.key[1], BLOCK);
    memcpy(trial.random + BLOCK, trial.random, BLOCK);
    for (int mask = 2 * BLOCK; mask < RANDOM_LENGTH; mask += 3) {
        trial.random[mask + 1] = trial.random[mask];
    }
    set_plaintext_and_key(&trial, figure[0], figure[1]);
    bool accepted = make_frame(call, &trial) == CIPPAZHEY_ACCEPTED;
    record(accepted && same(trial.share[0], figure[2]) && same(trial.share[1], trial.share[2]), what);
}

static void with_masks(frame_call *call, const uint8_t figure[3][BLOCK], const char *what) {
    struct frame_trial trial = accepted_frame();
    set_plaintext_and_key(&trial, figure[0], figure[1]);
    bool accepted = make_frame(call, &trial) == CIPPAZHEY_ACCEPTED;
    record(accepted && joins_to(&trial, figure[2]), what);
}

static void fips_197(void) {
    for (int each = 0; each < 2; each++) {
        uint8_t ciphertext[BLOCK];
        aes_encrypt(figures[each][0], figures[each][1], ciphertext);
        record(same(ciphertext, figures[each][2]), "FIPS 197, the cipher without shares");
        masks_cancelled(reference_encrypt_frame, figures[each], "FIPS 197, the reference with masks that cancel");
        masks_cancelled(cippazhey_encrypt_frame, figures[each], "FIPS 197 with masks that cancel");
        for (int masking = 0; masking < MASKINGS; masking++) {
            with_masks(reference_encrypt_frame, figures[each], "FIPS 197, the reference");
            with_masks(cippazhey_encrypt_frame, figures[each], "FIPS 197");
        }
    }
}

// The model's frames.

static void stored_frame(frame_call *call, const struct frame_case *stored, const char *what) {
    struct frame_trial trial = stored_trial(stored);
    bool accepted = make_frame(call, &trial) == CIPPAZHEY_ACCEPTED;
    record(accepted && memcmp(trial.share, stored->share, sizeof trial.share) == 0, what);
}

static void stored_frames(void) {
    for (size_t each = 0; each < frame_case_count; each++) {
        stored_frame(reference_encrypt_frame, &frame_cases[each], "the reference and the model");
        stored_frame(cippazhey_encrypt_frame, &frame_cases[each], "the model's shares");
    }
}

// Every number of random bytes and every length of scratch, as far as the buffers go.

static void expect_lengths(size_t random_length, size_t scratch_length, uint32_t refusal, const char *what) {
    struct frame_trial trial = accepted_frame();
    trial.random_length = random_length;
    trial.scratch_length = scratch_length;
    expect_frame(&trial, refusal, what);
}

static void refusals(void) {
    const size_t scratch_lengths[] = {0, 1, 255, 256, 257, 300, LONGEST_SCRATCH};
    for (size_t random_length = 0; random_length <= MOST_RANDOM; random_length++) {
        for (int each = 0; each < 7 && random_length != RANDOM_LENGTH; each++) {
            expect_lengths(random_length, scratch_lengths[each], 26, "number of random bytes");
        }
    }
    for (size_t scratch_length = 0; scratch_length <= LONGEST_SCRATCH; scratch_length++) {
        expect_lengths(RANDOM_LENGTH, scratch_length, scratch_length < SCRATCH_LENGTH ? 13 : 0, "length of scratch");
    }
}

// Scratch may hold anything: one value everywhere, or one byte that is not zero, in each place.

static void contents_of_scratch(void) {
    struct frame_trial trial = accepted_frame();
    trial.scratch_length = 300;
    for (int value = 0; value < 256; value++) {
        memset(trial.scratch, value, sizeof trial.scratch);
        expect_frame(&trial, 0, "scratch of one value");
    }
    for (size_t place = 0; place < trial.scratch_length; place++) {
        memset(trial.scratch, 0, sizeof trial.scratch);
        trial.scratch[place] = (uint8_t)(1 + below(255));
        expect_frame(&trial, 0, "one byte of scratch not zero");
    }
}

// Frames and lookups in a row on one scratch: a frame takes what any call left, and leaves what any lookup takes.

static uint16_t look_up(struct frame_trial *trial) {
    return cippazhey_plain_call(2, 8, 8, 83, 17, 17, 1, 2, 200, 0, aes_sbox, 256, trial->scratch, trial->scratch_length);
}

static void in_a_row(void) {
    struct frame_trial first = accepted_frame(), trial;
    cippazhey_clear(first.scratch, first.scratch_length);
    record(look_up(&first) == (aes_sbox[83] ^ 3), "a lookup on cleared scratch");
    record(look_up(&first) == 256 * CIPPAZHEY_REFUSED_DIRTY_SCRATCH, "a lookup on what it left");
    expect_frame(&first, 0, "a frame on what a lookup left");
    trial = first;
    record(make_frame(cippazhey_encrypt_frame, &trial) == CIPPAZHEY_ACCEPTED, "the same on its own scratch");
    record(look_up(&trial) == (aes_sbox[83] ^ 3), "a lookup on what a frame left");
    trial.random_length--;
    expect_frame(&trial, 26, "a frame that is refused");
    trial.random_length++;
    expect_frame(&trial, 0, "the same with all random bytes");
    memcpy(trial.plaintext, trial.share[0], BLOCK);
    expect_frame(&trial, 0, "another plaintext");
    memcpy(trial.plaintext, first.plaintext, BLOCK);
    struct frame_trial again = trial;
    memset(again.share, 0, sizeof again.share);
    record(make_frame(cippazhey_encrypt_frame, &again) == CIPPAZHEY_ACCEPTED, "the first plaintext again");
    record(memcmp(again.share, trial.share, sizeof again.share) == 0, "the first shares again");
}

// Random frames, on scratch of any length.
static void random_frames(void) {
    for (int turn = 0; turn < RANDOM_FRAMES; turn++) {
        struct frame_trial trial = accepted_frame();
        trial.scratch_length += below(2) * below(LONGEST_SCRATCH - SCRATCH_LENGTH + 1);
        expect_frame(&trial, 0, "random frame");
    }
}

// One that makes fewer comparisons has left some out.
static const struct group groups[] = {
    {"fips_197", fips_197, 2 * (3 + 2 * MASKINGS)},
    {"stored_frames", stored_frames, 2 * STORED},
    {"refusals", refusals, 5501},
    {"faulty_random", faulty_random, FAULTY_RANDOM},
    {"contents_of_scratch", contents_of_scratch, 556},
    {"in_a_row", in_a_row, 10},
    {"long_buffers", long_buffers, 40},
    {"ends_of_pages", ends_of_pages, 108},
    {"watched_scratch", watched_scratch, 1208},
    {"random_frames", random_frames, RANDOM_FRAMES},
};

int main(int count, char **words) {
    return run_groups(groups, sizeof groups / sizeof *groups, count, words);
}
