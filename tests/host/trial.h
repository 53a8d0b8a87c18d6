// Calls to try, and one comparison of the exported plain call with the reference.
#ifndef TRIAL_H
#define TRIAL_H

#include "groups.h"
#include "numbers.h"

#include <stddef.h>
#include <stdint.h>

enum { METHOD, N, M, X0, R1, R2, S1, S2, R3, B, NUMBERS };
// The longest table and scratch of a trial.
enum { LONGEST = 800 };

// Every way to look up: a method with each b that it takes.
enum { WAYS = 4, METHODS = 3 };
struct way {
    uint32_t method, b;
};
extern const struct way ways[WAYS];
extern const uint32_t methods[METHODS];
uint32_t some_method(void);

// How many bytes of scratch a method needs, and how many values of r3 it takes: under method 5 it is always 0.
uint32_t scratch_needed(uint32_t method, uint32_t n);
uint32_t limit_of_r3(uint32_t method, uint32_t n);

// A call to make: its numbers in the order of the parameters, what table and scratch hold, and the lengths to lend.
struct trial {
    uint32_t number[NUMBERS];
    uint8_t table[LONGEST], scratch[LONGEST];
    size_t table_length, scratch_length;
};

// How many calls met each refusal.
extern unsigned long met[256];

// Fills scratch from a place on, as far as any length, with bytes of which none is zero.
void make_dirty(struct trial *trial, size_t from);

// A call that is accepted: random masks, a table of zeros, and scratch that just suffices. Scratch is zero in the bytes that are needed and
// dirty behind them, so that it shows where a call that is lent more looks or writes there.
struct trial on_zeros(uint32_t method, uint32_t n, uint32_t m);

// The same on a random table that is fit. Where m is not above n, half of the tables are balanced, or more.
struct trial accepted(uint32_t method, uint32_t n, uint32_t m);

// The result of the exported call and of the reference, on the buffers given.
uint16_t make_call(const struct trial *trial, const uint8_t *table, uint8_t *scratch);
uint16_t make_reference_call(const struct trial *trial, const uint8_t *table, uint8_t *scratch);

// Makes the call both ways on buffers with guards on both sides, and counts whether the result, the whole scratch, the guards
// and the table are as they must be. Returns the exported call's result.
uint16_t compare(const struct trial *trial, const char *what);

// The same, and holds the refusal to a number.
void expect(const struct trial *trial, unsigned refusal, const char *what);

// The same of the call with one number changed, with other lengths lent, and with one byte of scratch changed.
void expect_with(const struct trial *trial, int place, uint32_t number, unsigned refusal, const char *what);
void expect_lengths(struct trial trial, size_t table_length, size_t scratch_length, unsigned refusal, const char *what);
void expect_dirt(struct trial trial, size_t place, uint8_t dirt, unsigned refusal, const char *what);

// The same, and holds the share and the scratch to their values.
void expect_whole(const struct trial *trial, unsigned share, const uint8_t *bytes, const char *what);

#endif
