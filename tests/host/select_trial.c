// One comparison of the exported selection with the reference, and of both with what is known of its results.
#include "select_trial.h"

#include "select_reference.h"

#include <stdio.h>
#include <string.h>

typedef uint32_t select_call(uint32_t, uint32_t, uint32_t, uint32_t, uint32_t, uint32_t, uint32_t, uint32_t, uint32_t, uint32_t, uint8_t *,
                             uint8_t *, uint8_t *);

uint32_t limit(uint32_t width, int place) {
    return place <= Z2 ? power(2 * width) : place == T1 || place == T2 ? power(width) : 2;
}

uint32_t known_refusal(const struct selection *s) {
    if (s->width == 0 || s->width > MOST_WIDTH) {
        return CIPPAZHEY_REFUSED_SELECT_WIDTH;
    }
    for (int place = 0; place < NUMBERS; place++) {
        if (s->number[place] >= limit(s->width, place)) {
            return CIPPAZHEY_REFUSED_SELECT_INPUT;
        }
    }
    return CIPPAZHEY_ACCEPTED;
}

static uint8_t chosen(uint32_t bit, uint32_t width, uint32_t word) {
    return (uint8_t)(bit ? word & (power(width) - 1) : word >> width);
}

void known_shares(const struct selection *s, uint8_t shares[SHARES]) {
    const uint32_t *n = s->number, bit = n[C0] ^ n[C1] ^ n[C2];
    shares[0] = (uint8_t)(chosen(bit, s->width, n[Z0]) ^ n[T1]);
    shares[1] = (uint8_t)(chosen(bit, s->width, n[Z1]) ^ n[T2]);
    shares[2] = (uint8_t)(chosen(bit, s->width, n[Z2]) ^ n[T1] ^ n[T2]);
}

// The three shares join to the half of the joined word.
static bool joins(const struct selection *s, const uint8_t shares[SHARES]) {
    const uint32_t *n = s->number, word = n[Z0] ^ n[Z1] ^ n[Z2], bit = n[C0] ^ n[C1] ^ n[C2];
    return (shares[0] ^ shares[1] ^ shares[2]) == chosen(bit, s->width, word);
}

// Whether the call returns the refusal and leaves the room as it must be.
static bool leaves(select_call *call, const struct selection *s, uint32_t refusal, const size_t places[SHARES], uint8_t filled) {
    const uint32_t *n = s->number;
    uint8_t room[ROOM], wanted[ROOM], shares[SHARES];
    memset(room, filled, sizeof room);
    memset(wanted, filled, sizeof wanted);
    bool good = true;
    if (refusal == CIPPAZHEY_ACCEPTED) {
        known_shares(s, shares);
        good = joins(s, shares);
        for (int each = 0; each < SHARES; each++) {
            wanted[places[each]] = shares[each];
        }
    }
    uint32_t got = call(s->width, n[Z0], n[Z1], n[Z2], n[C0], n[C1], n[C2], n[T1], n[T2], n[B], room + places[0], room + places[1],
                        room + places[2]);
    return good && got == refusal && memcmp(room, wanted, sizeof room) == 0;
}

void expect_at(const struct selection *s, uint32_t refusal, const size_t places[SHARES], const char *what) {
    bool good = true;
    for (int each = 0; each < 4; each++) {
        good = leaves(each % 2 ? reference_select : cippazhey_select, s, refusal, places, each < 2 ? 0 : 0xff) && good;
    }
    if (!good) {
        printf("width %lx, numbers", (unsigned long)s->width);
        for (int place = 0; place < NUMBERS; place++) {
            printf(" %lx", (unsigned long)s->number[place]);
        }
        printf("\n");
    }
    record(good, what);
}

void expect(const struct selection *s, uint32_t refusal, const char *what) {
    const size_t places[SHARES] = {3, 6, 11};
    expect_at(s, refusal, places, what);
}
