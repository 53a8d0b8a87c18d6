// Frames to try, and one comparison of the exported call with the reference.
#ifndef FRAME_TRIAL_H
#define FRAME_TRIAL_H

#include "frame_cases.h"
#include "groups.h"
#include "numbers.h"

#include <stddef.h>
#include <stdint.h>

enum { BLOCK = 16, RANDOM_LENGTH = 632, SCRATCH_LENGTH = 256 };
// The most random bytes and the longest scratch of a trial.
enum { MOST_RANDOM = 700, LONGEST_SCRATCH = 600 };

// A frame to encrypt: what is lent, and the lengths to lend.
struct frame_trial {
    uint8_t plaintext[BLOCK], key[3][BLOCK], random[MOST_RANDOM], scratch[LONGEST_SCRATCH], share[3][BLOCK];
    size_t random_length, scratch_length;
};

// The type of the exported call and of the reference.
typedef uint32_t frame_call(const uint8_t *plaintext, const uint8_t *key1, const uint8_t *key2, const uint8_t *key3,
                            const uint8_t *random, size_t random_length, uint8_t *scratch, size_t scratch_length, uint8_t *share1,
                            uint8_t *share2, uint8_t *share3);

// Fills bytes with some that look random.
void fill_random(uint8_t *bytes, size_t length);

// A frame that is accepted: all that is lent looks random, scratch and the results too. Scratch just suffices.
struct frame_trial accepted_frame(void);

// A frame that the model has made.
struct frame_trial stored_trial(const struct frame_case *stored);

// Sets the plaintext and the first key share, so that the key's shares join to a key.
void set_plaintext_and_key(struct frame_trial *trial, const uint8_t plaintext[BLOCK], const uint8_t key[BLOCK]);

// The buffers of a call, in the order of the parameters. Those up to the random bytes are only read.
enum { PLAINTEXT, KEY1, KEY2, KEY3, RANDOM, SCRATCH, SHARE1, SHARE2, SHARE3, BUFFERS };

struct buffer {
    uint8_t *bytes;
    size_t length;
};

void list_buffers(struct frame_trial *trial, struct buffer buffers[BUFFERS]);

// A call with these buffers. An empty one is lent as NULL half of the time.
uint32_t call_with(frame_call *call, const struct buffer buffers[BUFFERS]);

// A call on the trial's own buffers: its refusal, and what it leaves there.
uint32_t make_frame(frame_call *call, struct frame_trial *trial);

// Whether the shares that a call left in the trial join to the ciphertext.
bool joins_to(const struct frame_trial *trial, const uint8_t ciphertext[BLOCK]);

// Encrypts the frame both ways, and counts whether the refusal is the given one, the results and scratch are as they must be, the shares
// join to the ciphertext, and nothing else is changed: not what is read, nor the guards around each buffer.
void expect_frame(const struct frame_trial *trial, uint32_t refusal, const char *what);

#endif
