// One comparison of the exported selection with the reference, and of both with what is known of its results.
#ifndef SELECT_TRIAL_H
#define SELECT_TRIAL_H

#include "cippazhey.h"
#include "groups.h"
#include "numbers.h"

// The numbers of a call behind its width, in the order of its parameters.
enum { Z0, Z1, Z2, C0, C1, C2, T1, T2, B, NUMBERS };

struct selection {
    uint32_t width, number[NUMBERS];
};

enum { MOST_WIDTH = 8, SHARES = 3, ROOM = 16 };

// What a number of the call must be below, at a width that is accepted.
uint32_t limit(uint32_t width, int place);

// The refusal that the requirements give these numbers.
uint32_t known_refusal(const struct selection *s);

// The three shares where nothing is refused, told from the joined bit: those of the half that it chooses, with t1, t2 and both added.
void known_shares(const struct selection *s, uint8_t shares[SHARES]);

// Makes the call by the archive and by the reference, each twice, with zeros and with ones in the room that the three results are part of.
// Counts whether both return the refusal, write what is known and leave all other bytes as they were; refused, all.
void expect(const struct selection *s, uint32_t refusal, const char *what);

// The same where the results have these places in the room.
void expect_at(const struct selection *s, uint32_t refusal, const size_t places[SHARES], const char *what);

#endif
