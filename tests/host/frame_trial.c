// Frames to try, and one comparison of the exported call with the reference.
#include "frame_trial.h"

#include "aes.h"
#include "cippazhey.h"
#include "frame_reference.h"

#include <stdio.h>
#include <string.h>

// All buffers of a call stand in one room, with guards before, between and behind them.
enum { GUARD = 64, ROOM = BUFFERS * (GUARD + BLOCK) + 7 * BLOCK + MOST_RANDOM + LONGEST_SCRATCH + GUARD };

void fill_random(uint8_t *bytes, size_t length) {
    for (size_t place = 0; place < length; place++) {
        bytes[place] = (uint8_t)below(256);
    }
}

struct frame_trial accepted_frame(void) {
    struct frame_trial trial;
    fill_random((uint8_t *)&trial, sizeof trial);
    trial.random_length = RANDOM_LENGTH;
    trial.scratch_length = SCRATCH_LENGTH;
    return trial;
}

struct frame_trial stored_trial(const struct frame_case *stored) {
    struct frame_trial trial = accepted_frame();
    memcpy(trial.plaintext, stored->plaintext, BLOCK);
    memcpy(trial.key, stored->key, sizeof trial.key);
    memcpy(trial.random, stored->random, RANDOM_LENGTH);
    return trial;
}

static void join(const uint8_t *share1, const uint8_t *share2, const uint8_t *share3, uint8_t joined[BLOCK]) {
    for (int place = 0; place < BLOCK; place++) {
        joined[place] = share1[place] ^ share2[place] ^ share3[place];
    }
}

bool joins_to(const struct frame_trial *trial, const uint8_t ciphertext[BLOCK]) {
    uint8_t joined[BLOCK];
    join(trial->share[0], trial->share[1], trial->share[2], joined);
    return memcmp(joined, ciphertext, BLOCK) == 0;
}

void set_plaintext_and_key(struct frame_trial *trial, const uint8_t plaintext[BLOCK], const uint8_t key[BLOCK]) {
    memcpy(trial->plaintext, plaintext, BLOCK);
    join(key, trial->key[1], trial->key[2], trial->key[0]);
}

void list_buffers(struct frame_trial *trial, struct buffer buffers[BUFFERS]) {
    const struct buffer list[BUFFERS] = {
        {trial->plaintext, BLOCK},
        {trial->key[0], BLOCK},
        {trial->key[1], BLOCK},
        {trial->key[2], BLOCK},
        {trial->random, trial->random_length},
        {trial->scratch, trial->scratch_length},
        {trial->share[0], BLOCK},
        {trial->share[1], BLOCK},
        {trial->share[2], BLOCK},
    };
    memcpy(buffers, list, sizeof list);
}

uint32_t call_with(frame_call *call, const struct buffer buffers[BUFFERS]) {
    uint8_t *at[BUFFERS];
    for (int each = 0; each < BUFFERS; each++) {
        at[each] = buffers[each].length == 0 && below(2) == 0 ? NULL : buffers[each].bytes;
    }
    return call(at[PLAINTEXT], at[KEY1], at[KEY2], at[KEY3], at[RANDOM], buffers[RANDOM].length, at[SCRATCH], buffers[SCRATCH].length,
                at[SHARE1], at[SHARE2], at[SHARE3]);
}

uint32_t make_frame(frame_call *call, struct frame_trial *trial) {
    struct buffer buffers[BUFFERS];
    list_buffers(trial, buffers);
    return call_with(call, buffers);
}

// Copies the trial's buffers to places of any alignment in the room, and lists them there. The rest of the room is the guards.
static void lay_out(const struct frame_trial *trial, uint8_t room[ROOM], struct buffer lent[BUFFERS]) {
    struct frame_trial copy = *trial;
    uint8_t *end = room;
    list_buffers(&copy, lent);
    fill_random(room, ROOM);
    for (int each = 0; each < BUFFERS; each++) {
        uint8_t *place = end + GUARD + below(16);
        memcpy(place, lent[each].bytes, lent[each].length);
        lent[each].bytes = place;
        end = place + lent[each].length;
    }
}

// What an accepted frame must leave, in a copy of the room: zeros in the first bytes of scratch, the shares that the reference finds, and
// all else as it was.
static void complete(const struct frame_trial *reference, const uint8_t *room, const struct buffer *lent, uint8_t copy[ROOM]) {
    memset(copy + (lent[SCRATCH].bytes - room), 0, SCRATCH_LENGTH);
    for (int share = 0; share < 3; share++) {
        memcpy(copy + (lent[SHARE1 + share].bytes - room), reference->share[share], BLOCK);
    }
}

// Whether what the reference leaves of its own scratch is what it must be, and its shares join.
static bool reference_right(const struct frame_trial *trial, const struct frame_trial *left) {
    uint8_t key[BLOCK], ciphertext[BLOCK], wanted[LONGEST_SCRATCH];
    join(trial->key[0], trial->key[1], trial->key[2], key);
    aes_encrypt(trial->plaintext, key, ciphertext);
    memcpy(wanted, trial->scratch, sizeof wanted);
    memset(wanted, 0, SCRATCH_LENGTH);
    return memcmp(left->scratch, wanted, sizeof wanted) == 0 && joins_to(left, ciphertext);
}

void expect_frame(const struct frame_trial *trial, uint32_t refusal, const char *what) {
    static uint8_t room[ROOM], wanted[ROOM];
    struct buffer lent[BUFFERS];
    struct frame_trial reference = *trial;
    uint32_t expected = make_frame(reference_encrypt_frame, &reference);
    bool right = expected == refusal && (refusal != 0 || reference_right(trial, &reference));
    lay_out(trial, room, lent);
    memcpy(wanted, room, ROOM);
    if (refusal == 0) {
        complete(&reference, room, lent, wanted);
    }
    uint32_t got = call_with(cippazhey_encrypt_frame, lent);
    bool good = right && got == refusal && memcmp(room, wanted, ROOM) == 0;
    if (!good) {
        printf("got %lu and not %lu, the reference %lu, of %lu random bytes and scratch of %lu\n", (unsigned long)got,
               (unsigned long)refusal, (unsigned long)expected, (unsigned long)trial->random_length, (unsigned long)trial->scratch_length);
    }
    record(good, what);
}
