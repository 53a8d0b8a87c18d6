// The calls on scratch that is dirty, long or used: groups of plain_call_test.c.
#include "scratch.h"

#include "cippazhey.h"

#include <string.h>

// A nonzero byte in each place, and in three places with values that a test for one bit, for a sign or for 1 takes for zero.
static void dirt_bounds(const struct trial *fine, size_t needed) {
    const size_t places[] = {0, needed / 2, needed - 1};
    const uint8_t values[] = {1, 128, 255};
    for (size_t place = 0; place < needed; place++) {
        expect_dirt(*fine, place, (uint8_t)power(below(8)), 19, "one dirty byte");
    }
    for (int each = 0; each < 9; each++) {
        expect_dirt(*fine, places[each / 3], values[each % 3], 19, "dirty first, middle or last byte");
    }
}

// What scratch holds behind the bytes that are needed is not looked at, and does not make good what stands before.
static void dirt_in_longer_scratch(struct trial longer, size_t needed) {
    longer.scratch_length = needed + 1;
    expect_dirt(longer, needed, 1, 0, "dirty byte behind, 1");
    expect_dirt(longer, needed, 128, 0, "dirty byte behind, 128");
    expect_dirt(longer, needed, 255, 0, "dirty byte behind, 255");
    longer.scratch_length = LONGEST;
    expect_dirt(longer, needed - 1, 1, 19, "dirty last byte, dirty behind");
    memset(longer.scratch, 0, LONGEST);
    expect(&longer, 0, "clean behind");
    expect_dirt(longer, needed - 1, 1, 19, "dirty last byte, clean behind");
}

void dirty_scratch(const struct trial *fine) {
    struct trial dirty = *fine;
    size_t needed = fine->scratch_length;
    dirty.scratch[0] = 128;
    expect_dirt(dirty, needed - 1, 128, 19, "two dirty bytes whose sum in 8 bits and whose exclusive or are zero");
    make_dirty(&dirty, 0);
    expect(&dirty, 19, "every byte dirty");
    expect_lengths(dirty, dirty.table_length, needed - 1, 13, "every byte dirty, and too few");
    dirt_bounds(fine, needed);
    dirt_in_longer_scratch(*fine, needed);
}

// Lengths that come into range when they are cut to 8 or 16 bits: such a table is refused, such scratch suffices.

enum { LONG = 65536 + 512 };
static uint8_t long_table[LONG], long_scratch[LONG], wanted_scratch[LONG];

static void fill_long_scratch(size_t clean, uint8_t rest) {
    memset(long_scratch, 0, clean);
    memset(long_scratch + clean, rest, LONG - clean);
    memcpy(wanted_scratch, long_scratch, LONG);
}

static void long_buffers_at(uint32_t method, uint32_t n, size_t length) {
    struct trial trial = accepted(method, n, 1 + below(8));
    memcpy(long_table, trial.table, power(n));
    fill_long_scratch(scratch_needed(method, n), 170);
    trial.scratch_length = length;
    uint16_t got = make_call(&trial, long_table, long_scratch);
    record(got == make_reference_call(&trial, long_table, wanted_scratch), "result with long scratch");
    trial.table_length += length;
    record(make_call(&trial, long_table, long_scratch) == 256 * CIPPAZHEY_REFUSED_TABLE_LENGTH, "long table");
    record(memcmp(long_scratch, wanted_scratch, LONG) == 0, "long scratch");
}

// One dirty byte in long scratch. Behind the bytes that are needed it does not matter, wherever its place comes to when it is cut.
static void dirt_in_long_scratch(uint32_t method, uint32_t n, size_t place) {
    struct trial trial = accepted(method, n, 1 + below(8));
    trial.scratch_length = LONG;
    fill_long_scratch(LONG, 0);
    long_scratch[place] = wanted_scratch[place] = (uint8_t)(1 + below(255));
    uint16_t got = make_call(&trial, trial.table, long_scratch);
    record(got == make_reference_call(&trial, trial.table, wanted_scratch), "result with a dirty byte in long scratch");
    record(cippazhey_refusal_of(got) == (place < scratch_needed(method, n) ? 19 : 0), "dirty byte in long scratch");
    record(memcmp(long_scratch, wanted_scratch, LONG) == 0, "long scratch with a dirty byte");
}

static void long_scratch_at(uint32_t method, uint32_t n) {
    const size_t needed = scratch_needed(method, n);
    const size_t places[] = {0, needed - 1, needed, 256, 256 + needed - 1, 512, 512 + needed - 1, 65535, 65536, 65536 + needed - 1};
    const size_t lengths[] = {256, 512, 1024, 65536};
    for (size_t each = 0; each < sizeof lengths / sizeof *lengths; each++) {
        long_buffers_at(method, n, lengths[each]);
    }
    for (size_t each = 0; each < sizeof places / sizeof *places; each++) {
        dirt_in_long_scratch(method, n, places[each]);
    }
}

void long_buffers(void) {
    for (int each = 0; each < METHODS; each++) {
        for (uint32_t n = 1; n <= 8; n++) {
            long_scratch_at(methods[each], n);
        }
    }
}

// Calls in a row on one scratch: at one width each needs it cleared.

static bool all_zero(const uint8_t *bytes, size_t length) {
    for (size_t place = 0; place < length; place++) {
        if (bytes[place] != 0) {
            return false;
        }
    }
    return true;
}

// A call on its trial's own scratch, in any way. Method 5 takes no r3.
static uint16_t call_on_own_scratch(struct trial *trial, struct way way) {
    struct trial made = *trial;
    made.number[METHOD] = way.method;
    made.number[R3] %= limit_of_r3(way.method, trial->number[N]);
    made.number[B] = way.b;
    return make_call(&made, trial->table, trial->scratch);
}

// What a call leaves is not all zero: method 3 leaves both bits, the others two values or one that the masks do not make zero. So no call
// takes it at that width.
static void calls_on_used_scratch(struct trial *trial, const uint8_t left[LONGEST]) {
    const uint16_t dirty = 256 * CIPPAZHEY_REFUSED_DIRTY_SCRATCH;
    for (int each = 0; each < WAYS; each++) {
        record(call_on_own_scratch(trial, ways[each]) == dirty, "a call on what the first left");
    }
    record(memcmp(trial->scratch, left, LONGEST) == 0, "scratch after the refused calls");
}

static void clear_scratch(struct trial *trial, size_t length, const uint8_t left[LONGEST]) {
    cippazhey_clear(trial->scratch, length);
    record(all_zero(trial->scratch, length), "scratch cleared");
    record(memcmp(trial->scratch + length, left + length, LONGEST - length) == 0, "what stands behind the cleared scratch");
}

static void calls_in_a_row_at(struct trial trial, struct way way) {
    uint8_t left[LONGEST];
    uint16_t share = call_on_own_scratch(&trial, way);
    record(cippazhey_refusal_of(share) == CIPPAZHEY_ACCEPTED, "first call");
    memcpy(left, trial.scratch, LONGEST);
    calls_on_used_scratch(&trial, left);
    clear_scratch(&trial, scratch_needed(way.method, trial.number[N]), left);
    record(call_on_own_scratch(&trial, way) == share, "the first call again on cleared scratch");
    record(memcmp(trial.scratch, left, LONGEST) == 0, "what the first call leaves again");
    for (int each = 0; each < WAYS; each++) {
        clear_scratch(&trial, trial.scratch_length, left);
        record(call_on_own_scratch(&trial, ways[each]) == share, "each way on cleared scratch: one share");
    }
}

// A narrower call looks at less, and may find zeros in what a wider one left: P3 leaves 0, 0, 1, 0, and P1 takes the first two.
static void narrower_call(void) {
    struct trial p3 = {{3, 2, 2, 0, 1, 2, 3, 0, 2, 1}, {2, 0, 3, 1}, {0}, 4, 4};
    struct trial p1 = {{2, 1, 1, 0, 1, 0, 0, 1, 1, 0}, {1, 0}, {0}, 2, 4};
    record(make_call(&p3, p3.table, p3.scratch) == 2, "P3");
    record(make_call(&p1, p1.table, p3.scratch) == 1, "P1 on what P3 left");
    record(memcmp(p3.scratch, (const uint8_t[]){0, 1, 1, 0}, 4) == 0, "what P1 leaves of it");
}

// Methods 2 and 5 leave zeros of a constant table whose value the masks make zero, and are taken again.
static void constant_table(void) {
    const struct way by_2 = {2, 0}, by_5 = {5, 0};
    struct trial trial = {{2, 2, 2, 0, 1, 2, 1, 2, 2, 0}, {3, 3, 3, 3}, {0}, 4, 8};
    record(call_on_own_scratch(&trial, by_2) == 0 && all_zero(trial.scratch, 4), "3, 3, 3, 3 under masks that make zero of it");
    record(call_on_own_scratch(&trial, by_2) == 0 && all_zero(trial.scratch, 4), "the same call on the zeros that the first left");
    trial.number[S1] = 3;
    trial.number[S2] = 0;
    record(call_on_own_scratch(&trial, by_5) == 0 && all_zero(trial.scratch, 8), "method 5, both halves zero");
    record(call_on_own_scratch(&trial, by_5) == 0 && all_zero(trial.scratch, 8), "method 5 on the zeros that it left");
}

// Where the first half alone is zero, method 5 refuses what it left, and the others, which look no further, take it.
static void half_of_a_scratch(void) {
    struct trial trial = {{5, 2, 2, 0, 1, 2, 3, 1, 2, 0}, {3, 3, 3, 3}, {0}, 4, 8};
    record(call_on_own_scratch(&trial, (struct way){5, 0}) == 1, "3, 3, 3, 3 under masks that make zeros of the first half");
    record(memcmp(trial.scratch, (const uint8_t[]){0, 0, 0, 0, 1, 1, 1, 1}, 8) == 0, "what it leaves");
    record(call_on_own_scratch(&trial, (struct way){5, 0}) == 256 * CIPPAZHEY_REFUSED_DIRTY_SCRATCH, "method 5 on it");
    record(call_on_own_scratch(&trial, (struct way){2, 0}) == 1, "method 2 on it");
    record(memcmp(trial.scratch, (const uint8_t[]){1, 1, 1, 1, 1, 1, 1, 1}, 8) == 0, "what method 2 leaves of it");
}

void calls_in_a_row(void) {
    narrower_call();
    constant_table();
    half_of_a_scratch();
    for (uint32_t n = 1; n <= 8; n++) {
        for (uint32_t m = 1; m <= 8; m++) {
            struct trial trial = accepted(5, n, m); // its scratch suffices for all
            trial.number[R3] = below(power(n));
            trial.number[S2] &= ~1u; // so that neither mask, nor both, make zero of the table's first value
            trial.number[S1] = trial.table[0] ^ trial.number[S2] ^ 1;
            trial.scratch_length += below(LONGEST - trial.scratch_length);
            for (int each = 0; each < WAYS; each++) {
                calls_in_a_row_at(trial, ways[each]);
            }
        }
    }
}
