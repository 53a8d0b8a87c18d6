// Compares the exported plain call with the reference, and with figures of its own (docs/REFERENCE.md). Run it with a group's name for that
// group alone. Prints a line of counts for each group of calls and the first calls that differ; exits with 1 if any differs, or if
// comparisons are missing. The twentieth difference ends it.
#include "bench_sheet.h"
#include "cippazhey.h"
#include "fit_tables.h"
#include "lent_pages.h"
#include "scratch.h"
#include "trial.h"

#include <string.h>

enum { RANDOM_CALLS = 100000 };

// Each refusal, with what is just inside and just outside, and numbers that come into range when they are cut to 8 or 16 bits.

static void outside_bounds(const struct trial *fine, int place, uint32_t limit, unsigned refusal, const char *what) {
    const uint32_t outside[] = {limit, limit + 1, 256, 258, 65536, 65536 + limit, UINT32_MAX};
    for (size_t each = 0; each < sizeof outside / sizeof *outside; each++) {
        expect_with(fine, place, outside[each], refusal, what);
    }
}

static void number_bounds(const struct trial *fine, int place, uint32_t limit, unsigned refusal, const char *what) {
    expect_with(fine, place, limit - 1, 0, what);
    expect_with(fine, place, 0, 0, what);
    outside_bounds(fine, place, limit, refusal, what);
}

// Where r3 must be 0, one that is too large for its width is still 10, and another 12.
static void bounds_of_r3(const struct trial *fine, uint32_t entries, uint32_t limit) {
    expect_with(fine, R3, 0, 0, "r3");
    expect_with(fine, R3, limit - 1, 0, "largest r3");
    expect_with(fine, R3, 1, limit > 1 ? 0 : 12, "r3 of 1");
    expect_with(fine, R3, entries - 1, limit > 1 ? 0 : 12, "largest r3 of its width");
    outside_bounds(fine, R3, entries, 10, "r3 too large");
}

// With one entry changed no table of more than two entries stays fit, and each of two does.
static void entry_bounds(const struct trial *fine, uint32_t values) {
    for (size_t place = 0; place < fine->table_length; place++) {
        struct trial changed = *fine;
        changed.table[place] = (uint8_t)(values - 1);
        expect(&changed, fine->table[place] == values - 1 || fine->table_length == 2 ? 0 : 7, "largest entry");
        if (values < 256) {
            changed.table[place] = (uint8_t)values;
            expect(&changed, 6, "entry too large");
        }
    }
}

static void widths_and_methods(const struct trial *fine, uint32_t n) {
    const uint32_t no_methods[] = {0, 1, 4, 6, 7, 256, 258, 259, 261, 65538, 65539, 65541, UINT32_MAX};
    const uint32_t no_widths[] = {0, 9, 16, 31, 32, 32 + n, 64 + n, 255, 256, 256 + n, 65536 + n, UINT32_MAX};
    for (size_t each = 0; each < sizeof no_methods / sizeof *no_methods; each++) {
        expect_with(fine, METHOD, no_methods[each], 2, "method");
    }
    for (size_t each = 0; each < sizeof no_widths / sizeof *no_widths; each++) {
        expect_with(fine, N, no_widths[each], 3, "input width");
        expect_with(fine, M, no_widths[each], 4, "output width");
    }
    expect_with(fine, M, 8, 0, "greatest output width");
}

static void neighbours_at(uint32_t method, uint32_t n, uint32_t m) {
    struct trial fine = accepted(method, n, m);
    uint32_t entries = power(n), values = power(m), needed = scratch_needed(method, n);
    expect(&fine, 0, "accepted");
    widths_and_methods(&fine, n);
    expect_lengths(fine, entries - 1, needed, 5, "table too short");
    expect_lengths(fine, entries + 1, needed, 5, "table too long");
    expect_lengths(fine, 2 * entries, needed, 5, "table twice as long");
    expect_lengths(fine, 0, needed, 5, "empty table");
    entry_bounds(&fine, values);
    number_bounds(&fine, X0, entries, 10, "x0");
    number_bounds(&fine, R1, entries, 10, "r1");
    number_bounds(&fine, R2, entries, 10, "r2");
    bounds_of_r3(&fine, entries, limit_of_r3(method, n));
    number_bounds(&fine, S1, values, 11, "s1");
    number_bounds(&fine, S2, values, 11, "s2");
    number_bounds(&fine, B, method == 3 ? 2 : 1, 12, "b");
    expect_lengths(fine, entries, needed - 1, 13, "scratch too short");
    expect_lengths(fine, entries, needed / 2, 13, "scratch half as long");
    expect_lengths(fine, entries, 0, 13, "empty scratch");
    expect_lengths(fine, entries, needed + 1, 0, "scratch longer by one");
    expect_lengths(fine, entries, LONGEST, 0, "scratch much longer");
    dirty_scratch(&fine);
}

static void neighbours(void) {
    for (uint32_t n = 1; n <= 8; n++) {
        for (uint32_t m = 1; m <= 8; m++) {
            for (int each = 0; each < METHODS; each++) {
                neighbours_at(methods[each], n, m);
            }
        }
    }
}

// Every set of refusals at once: the first in the order of checking is returned.

static const unsigned refusals[] = {2, 3, 4, 5, 6, 7, 10, 11, 12, 13, 19};
enum { REFUSALS = sizeof refusals / sizeof *refusals };

// Scratch that is too short by one byte still has the dirty one.
static void add_dirt(struct trial *trial, uint32_t needed) {
    if (below(2)) {
        make_dirty(trial, 0);
    } else {
        trial->scratch[below(needed - 1)] = (uint8_t)(1 + below(255));
    }
}

// Any number for b that is too large, or for r3 where the method takes none.
static void add_own_mask(struct trial *trial, uint32_t method, uint32_t n) {
    if (method == 5 && below(2)) {
        trial->number[R3] = 1 + below(power(n) - 1);
    } else {
        trial->number[B] = below(2) ? 2 : 256;
    }
}

// Gives an accepted call one fault that does not take away another's, but for dirt in scratch that becomes empty. The table's two are
// applied with 7 before 6, and not to one entry. At n = 1 there is none for 7.
static void add_fault(struct trial *trial, unsigned refusal, uint32_t method, uint32_t n, uint32_t m) {
    uint32_t needed = scratch_needed(method, n);
    switch (refusal) {
    case 2: trial->number[METHOD] = below(2) ? 4 : 261; break;
    case 3: trial->number[N] = below(2) ? 9 : 0; break;
    case 4: trial->number[M] = below(2) ? 9 : 0; break;
    case 5: trial->table_length = below(2) ? power(n) + 1 : power(n) - 1; break;
    case 6: trial->table[below(power(n) - 1)] = (uint8_t)power(m); break;
    case 7: trial->table[power(n) - 1] ^= 1; break;
    case 10: trial->number[(const int[]){X0, R1, R2, R3}[below(4)]] = below(2) ? power(n) : UINT32_MAX; break;
    case 11: trial->number[below(2) ? S1 : S2] = below(2) ? power(m) : 256; break;
    case 12: add_own_mask(trial, method, n); break;
    case 13: trial->scratch_length = (const size_t[]){needed - 1, needed / 2, 0}[below(3)]; break;
    default: add_dirt(trial, needed); break;
    }
}

static void several_faults_at(uint32_t method, uint32_t n, uint32_t m) {
    for (uint32_t chosen = 1; chosen < power(REFUSALS); chosen++) {
        struct trial trial = accepted(method, n, m);
        unsigned first = 0;
        for (int each = REFUSALS - 1; each >= 0; each--) {
            if (chosen >> each & 1) {
                first = refusals[each];
                add_fault(&trial, first, method, n, m);
            }
        }
        expect(&trial, first, "several faults");
    }
}

static void several_faults(void) {
    for (int each = 0; each < METHODS; each++) {
        several_faults_at(methods[each], 2, 1);
        several_faults_at(methods[each], 2, 5);
        several_faults_at(methods[each], 3, 2);
        several_faults_at(methods[each], 8, 7);
    }
}

// Small widths whole: every table, with every choice of masks or some.

// Scratch that suffices, and so many bytes more: zero in the bytes that are needed, and dirty behind them.
static void lend_scratch(struct trial *trial, struct way way, uint32_t more) {
    uint32_t needed = scratch_needed(way.method, trial->number[N]);
    trial->number[METHOD] = way.method;
    trial->number[B] = way.b;
    trial->scratch_length = needed + more;
    memset(trial->scratch, 0, needed);
    make_dirty(trial, needed);
}

// The choices by their numbers: a first one, and each that many behind the last.
static void choices_of_masks(struct trial *trial, uint32_t first, uint32_t step) {
    uint32_t entries = power(trial->number[N]), values = power(trial->number[M]);
    uint32_t own = limit_of_r3(trial->number[METHOD], trial->number[N]);
    uint32_t choices = entries * entries * entries * values * values * own;
    for (uint32_t choice = first; choice < choices; choice += step) {
        uint32_t rest = choice;
        for (int place = X0; place <= R3; place++) {
            uint32_t limit = place == R3 ? own : place == S1 || place == S2 ? values : entries;
            trial->number[place] = rest % limit;
            rest /= limit;
        }
        compare(trial, "small width");
    }
}

// Every table of entries from 0 to 2^m: those that hold 2^m meet 6, those that are not fit 7, and the others take the choices, from
// another first one each.
static void every_table(uint32_t n, uint32_t m, uint32_t fit, uint32_t step) {
    uint32_t tables = 1, accepted_tables = 0;
    for (uint32_t place = 0; place < power(n); place++) {
        tables *= power(m) + 1;
    }
    for (uint32_t code = 0; code < tables; code++) {
        struct trial trial = {{2, n, m, 0, 0, 0, 0, 0, 0, 0}, {0}, {0}, power(n), 0};
        uint32_t rest = code;
        for (uint32_t place = 0; place < power(n); place++) {
            trial.table[place] = (uint8_t)(rest % (power(m) + 1));
            rest /= power(m) + 1;
        }
        lend_scratch(&trial, ways[code % WAYS], code % 3);
        if (cippazhey_refusal_of(compare(&trial, "small table")) != CIPPAZHEY_ACCEPTED) {
            continue;
        }
        for (int each = 0; each < WAYS; each++) {
            lend_scratch(&trial, ways[each], code % 3);
            choices_of_masks(&trial, accepted_tables % step, step);
        }
        accepted_tables++;
    }
    record(accepted_tables == fit, "number of fit tables");
}

// How many tables are fit: those of one value, of two and of four, each time the cosets of so many times the orders of their values.
static void small_widths(void) {
    every_table(1, 1, 2 + 1 * 2, 1);
    every_table(1, 2, 4 + 6 * 2, 1);
    every_table(2, 1, 2 + 1 * 6, 1);
    every_table(2, 2, 4 + 6 * 6 + 1 * 24, 1);
    every_table(2, 3, 8 + 28 * 6 + 14 * 24, 193);
    every_table(3, 1, 2 + 1 * 70, 193);
}

// Random calls, some of them damaged.

static uint32_t boundary(void) {
    const uint32_t others[] = {255, 256, 258, 65536, UINT32_MAX};
    uint32_t kind = below(8);
    return kind < 3 ? power(below(10)) + kind - 1 : others[kind - 3];
}

static void damage(struct trial *trial, uint32_t n, uint32_t needed) {
    switch (below(10)) {
    case 0: trial->table_length = (const size_t[]){0, power(n) - 1, power(n) + 1}[below(3)]; break;
    case 1: trial->table[below(power(n))] = (uint8_t)below(256); break;
    case 2: trial->table[below(power(n))] = trial->table[below(power(n))]; break;
    case 3: trial->scratch_length = below(4) == 0 ? 0 : needed - 1; break;
    case 4: trial->scratch[below(needed)] = (uint8_t)below(256); break;
    case 5: make_dirty(trial, below(LONGEST)); break;
    default: trial->number[below(NUMBERS)] = boundary(); break;
    }
}

static void random_calls(void) {
    memset(met, 0, sizeof met);
    for (int turn = 0; turn < RANDOM_CALLS; turn++) {
        uint32_t method = some_method(), n = 1 + below(8), needed = scratch_needed(method, n);
        struct trial trial = accepted(method, n, 1 + below(8));
        if (below(2) == 0) {
            trial.scratch_length += below(LONGEST - needed);
        }
        for (uint32_t times = below(3); times > 0; times--) {
            damage(&trial, n, needed);
        }
        compare(&trial, "random call");
    }
    record(met[0] > 0, "random calls accepted");
    for (int each = 0; each < REFUSALS; each++) {
        record(met[refusals[each]] > 0, "random calls refused by each number");
    }
}

// One that makes fewer comparisons has left some out.
static const struct group groups[] = {
    {"bench_sheet", bench_sheet, 35},
    {"neighbours_of_refusals", neighbours, 64422},
    {"several_faults_at_once", several_faults, 24564},
    {"long_buffers", long_buffers, 1008},
    {"ends_of_pages", ends_of_pages, 144},
    {"fit_tables", fit_tables, 13584},
    {"small_widths_whole", small_widths, 1068159},
    {"calls_in_a_row", calls_in_a_row, 5644},
    {"random_calls", random_calls, 100012},
};

int main(int count, char **words) {
    return run_groups(groups, sizeof groups / sizeof *groups, count, words);
}
