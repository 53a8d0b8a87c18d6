// Calls to try, and one comparison of the exported plain call with the reference.
#include "trial.h"

#include "cippazhey.h"
#include "reference.h"
#include "tables.h"

#include <stdio.h>
#include <string.h>

enum { GUARD = 64, ROOM = GUARD + LONGEST + GUARD };

unsigned long met[256];
const struct way ways[WAYS] = {{2, 0}, {3, 0}, {3, 1}, {5, 0}};
const uint32_t methods[METHODS] = {2, 3, 5};

uint32_t some_method(void) {
    return methods[below(METHODS)];
}

uint32_t scratch_needed(uint32_t method, uint32_t n) {
    return method == 5 ? 2 * power(n) : power(n);
}

uint32_t limit_of_r3(uint32_t method, uint32_t n) {
    return method == 5 ? 1 : power(n);
}

// Bytes of which none is zero. They differ from place to place, and by the first of them from one filling to the next.
static void fill_dirty(uint8_t *bytes, size_t count) {
    uint32_t first = below(255);
    for (size_t place = 0; place < count; place++) {
        bytes[place] = (uint8_t)(1 + (first + place * 7) % 255);
    }
}

void make_dirty(struct trial *trial, size_t from) {
    fill_dirty(trial->scratch + from, LONGEST - from);
}

struct trial on_zeros(uint32_t method, uint32_t n, uint32_t m) {
    uint32_t entries = power(n), values = power(m), needed = scratch_needed(method, n);
    struct trial trial = {{method, n, m, 0, 0, 0, 0, 0, 0, method == 3 ? below(2) : 0}, {0}, {0}, entries, needed};
    trial.number[X0] = below(entries);
    trial.number[R1] = below(entries);
    trial.number[R2] = below(entries);
    trial.number[R3] = below(limit_of_r3(method, n));
    trial.number[S1] = below(values);
    trial.number[S2] = below(values);
    make_dirty(&trial, needed);
    return trial;
}

// Any rank that these widths have, or the greatest, which is m where m is not above n.
static uint32_t some_rank(uint32_t n, uint32_t m) {
    uint32_t greatest = m < n ? m : n;
    return below(2) ? below(greatest + 1) : greatest;
}

struct trial accepted(uint32_t method, uint32_t n, uint32_t m) {
    struct trial trial = on_zeros(method, n, m);
    fill_fit(trial.table, (struct shape){n, m, some_rank(n, m)});
    return trial;
}

// An empty buffer is lent as NULL half of the time.
static bool as_null(size_t length) {
    return length == 0 && below(2) == 0;
}

uint16_t make_call(const struct trial *trial, const uint8_t *table, uint8_t *scratch) {
    const uint32_t *number = trial->number;
    return cippazhey_plain_call(number[METHOD], number[N], number[M], number[X0], number[R1], number[R2], number[S1], number[S2],
                                number[R3], number[B], as_null(trial->table_length) ? NULL : table, trial->table_length,
                                as_null(trial->scratch_length) ? NULL : scratch, trial->scratch_length);
}

uint16_t make_reference_call(const struct trial *trial, const uint8_t *table, uint8_t *scratch) {
    const uint32_t *number = trial->number;
    struct lookup call = {number[METHOD], number[N],  number[M],  number[X0], number[R1], number[R2],
                          number[S1],     number[S2], number[R3], number[B],  table,      trial->table_length};
    return reference_plain_call(call, scratch, trial->scratch_length);
}

// Whether an accepted call's share joins with s1 and s2 to the secret's entry.
static bool joins(const struct trial *trial, unsigned share) {
    const uint32_t *number = trial->number;
    uint32_t secret = number[X0] ^ number[R1] ^ number[R2];
    return (share ^ number[S1] ^ number[S2]) == trial->table[secret];
}

// How many bytes of the lent scratch are zero before the first that is not.
static size_t zeros(const struct trial *trial) {
    size_t count = 0;
    while (count < trial->scratch_length && trial->scratch[count] == 0) {
        count++;
    }
    return count;
}

static void show(const struct trial *trial, unsigned got, unsigned wanted) {
    printf("got %u, %u and not %u, %u from", got / 256, got % 256, wanted / 256, wanted % 256);
    for (int place = 0; place < NUMBERS; place++) {
        printf(" %lu", (unsigned long)trial->number[place]);
    }
    printf(", table of %lu, scratch of %lu, zero up to %lu\n", (unsigned long)trial->table_length,
           (unsigned long)trial->scratch_length, (unsigned long)zeros(trial));
}

// A buffer's bytes between guards. No guard is zero: scratch that is looked at beyond its ends is not clean.
static void lay_out(uint8_t room[ROOM], const uint8_t *bytes, size_t length) {
    fill_dirty(room, ROOM);
    memcpy(room + GUARD, bytes, length);
}

// Makes the call both ways; `scratch` receives what the exported call leaves. Whether all is the same, and the result.
static bool agrees(const struct trial *trial, uint8_t scratch[LONGEST], uint16_t *result) {
    uint8_t before[ROOM], after[ROOM], wanted[LONGEST], table[ROOM], lent_table[ROOM];
    lay_out(before, trial->scratch, trial->scratch_length);
    lay_out(table, trial->table, trial->table_length);
    memcpy(lent_table, table, ROOM);
    memcpy(after, before, ROOM);
    memcpy(wanted, before + GUARD, LONGEST);

    uint16_t got = make_call(trial, lent_table + GUARD, after + GUARD);
    uint16_t expected = make_reference_call(trial, trial->table, wanted);
    size_t end = GUARD + trial->scratch_length;
    bool same = got == expected && memcmp(after + GUARD, wanted, trial->scratch_length) == 0;
    bool kept = memcmp(after, before, GUARD) == 0 && memcmp(after + end, before + end, ROOM - end) == 0;
    bool refused = cippazhey_refusal_of(got) != CIPPAZHEY_ACCEPTED;
    bool right = same && (refused ? memcmp(after, before, ROOM) == 0 : joins(trial, cippazhey_share_of(got)));
    memcpy(scratch, after + GUARD, LONGEST);
    *result = got;
    met[got / 256]++;
    bool good = right && kept && memcmp(lent_table, table, ROOM) == 0;
    if (!good) {
        show(trial, got, expected);
    }
    return good;
}

uint16_t compare(const struct trial *trial, const char *what) {
    uint8_t scratch[LONGEST];
    uint16_t result;
    record(agrees(trial, scratch, &result), what);
    return result;
}

void expect(const struct trial *trial, unsigned refusal, const char *what) {
    uint8_t scratch[LONGEST];
    uint16_t result;
    bool same = agrees(trial, scratch, &result);
    record(same && cippazhey_refusal_of(result) == refusal, what);
}

void expect_with(const struct trial *trial, int place, uint32_t number, unsigned refusal, const char *what) {
    struct trial changed = *trial;
    changed.number[place] = number;
    expect(&changed, refusal, what);
}

void expect_lengths(struct trial trial, size_t table_length, size_t scratch_length, unsigned refusal, const char *what) {
    trial.table_length = table_length;
    trial.scratch_length = scratch_length;
    expect(&trial, refusal, what);
}

void expect_dirt(struct trial trial, size_t place, uint8_t dirt, unsigned refusal, const char *what) {
    trial.scratch[place] = dirt;
    expect(&trial, refusal, what);
}

void expect_whole(const struct trial *trial, unsigned share, const uint8_t *bytes, const char *what) {
    uint8_t scratch[LONGEST];
    uint16_t result;
    bool same = agrees(trial, scratch, &result);
    record(same && result == share && memcmp(scratch, bytes, trial->scratch_length) == 0, what);
}
