// Compares the exported screen with the reference, and both with what is known of a run. Run it with a group's name for that group alone.
// Prints a line of counts for each group of runs and the first that differ; exits with 1 if any differs, or if comparisons are missing. The
// twentieth difference ends it.
#include "screen_buffers.h"
#include "screen_reference.h"
#include "screen_trial.h"

#include <string.h>

// A control may do with fewer.
#ifndef RANDOM_RUNS
#define RANDOM_RUNS 1500
#endif
#if RANDOM_RUNS < 200
#error too few random runs are tried
#endif

enum { LONGEST = 5000 };

static uint8_t run[LONGEST];

// There is nothing to look at, whatever stands there.
static void no_run(void) {
    memset(run, 0, sizeof run);
    expect(NULL, 0, NONE, "NULL");
    expect(run, 0, NONE, "an empty run");
}

// A run of one value is faulty from 21 bytes on. One of all values in turns is not.
static void lengths(void) {
    const size_t tried[] = {1, 20, 21, 255, 256, 276, 511, 512, 513, 632, 5000};
    for (size_t length = 0; length <= 1100; length++) {
        memset(run, (int)(length % 256), length);
        expect(run, length, length > MOST ? 0 : NONE, "one value");
        fill_without(run, length, (uint8_t)length);
        expect(run, length, NONE, "values in turns");
    }
    for (size_t each = 0; each < sizeof tried / sizeof *tried; each++) {
        for (int value = 0; value < 256; value++) {
            memset(run, value, tried[each]);
            expect(run, tried[each], tried[each] > MOST ? 0 : NONE, "each value alone");
        }
    }
}

// Exactly 20 and exactly 21 of a value in the first window. Of long runs, some values are enough.
static void occurrences(void) {
    const size_t tried[] = {21, 511, 512, 513, 632, 5000};
    for (size_t each = 0; each < sizeof tried / sizeof *tried; each++) {
        size_t length = tried[each], last = length < WINDOW ? length - 1 : WINDOW - 1;
        for (int value = 0; value < 256; value += length > 1000 ? 17 : 1) {
            fill_without(run, length, (uint8_t)value);
            spread(run, (uint8_t)value, MOST, 0, last);
            expect(run, length, NONE, "20 of a value");
            fill_without(run, length, (uint8_t)value);
            spread(run, (uint8_t)value, MOST + 1, 0, last);
            expect(run, length, 0, "21 of a value");
        }
    }
}

// 21 of a value in so many bytes from an offset on, in a run that goes on for so many more.
static void expect_spread(size_t offset, size_t bytes, size_t more, uint64_t start, const char *what) {
    size_t length = offset + bytes + more;
    uint8_t value = (uint8_t)(offset * 37);
    fill_without(run, length, value);
    spread(run, value, MOST + 1, offset, offset + bytes - 1);
    expect(run, length, start, what);
}

// In 512 bytes they are a fault, and in 513 none: at the offsets around those where a record of the last 512 bytes begins anew.
static void offsets(void) {
    const size_t more[] = {0, 1, 600};
    for (size_t offset = 0; offset <= 3 * WINDOW + 30; offset++) {
        for (int each = 0; each < 3 && (offset + 30) % WINDOW <= 60; each++) {
            expect_spread(offset, WINDOW, more[each], offset, "21 of a value in 512 bytes");
            expect_spread(offset, WINDOW + 1, more[each], NONE, "21 of a value in 513 bytes");
        }
    }
}

// A value at one distance from place to place: the 21st of them ends the first faulty window, if the first is in a window with it.
static void distances(void) {
    const size_t length = 1300;
    for (size_t distance = 1; distance <= 40; distance++) {
        for (size_t first = 0; first < distance; first++) {
            size_t end = first + MOST * distance;
            uint64_t start = end < WINDOW ? 0 : end - (WINDOW - 1);
            fill_without(run, length, (uint8_t)first);
            for (size_t place = first; place < length; place += distance) {
                run[place] = (uint8_t)first;
            }
            expect(run, length, MOST * distance < WINDOW ? start : NONE, "a value at one distance");
        }
    }
}

// Two values, 21 of each in 512 bytes, the second so many bytes behind the first. A value's places are 25 bytes apart or more, so that they
// share none.
static void two_values(size_t offset, size_t behind, uint8_t value, uint8_t second) {
    const size_t length = 2500;
    fill_without(run, length, value < second ? value : second);
    spread(run, value, MOST + 1, offset, offset + WINDOW - 1);
    spread(run, second, MOST + 1, offset + behind, offset + behind + WINDOW - 1);
    expect(run, length, offset, "faults of two values");
    memset(run + offset + WINDOW + behind, second, length - (offset + WINDOW + behind));
    expect(run, length, offset, "and many more");
}

// The second value's 21 begin later and end earlier, so that a window before the first value's has them all.
static void one_within_the_other(size_t offset, uint8_t value, uint8_t second) {
    const size_t length = 2500;
    fill_without(run, length, value < second ? value : second);
    spread(run, value, MOST + 1, offset, offset + WINDOW - 1);
    spread(run, second, MOST + 1, offset + 1, offset + WINDOW - 2);
    expect(run, length, offset - 1, "a fault within another's window");
}

static void several_faults(void) {
    const size_t offsets[] = {1, 2, 300, 511, 512, 513, 1000, 1024};
    for (int each = 0; each < 8; each++) {
        for (size_t behind = 1; behind < 25; behind++) {
            two_values(offsets[each], behind, 100, 101);
            two_values(offsets[each], behind, 101, 100);
        }
        one_within_the_other(offsets[each], 9, 10);
        one_within_the_other(offsets[each], 10, 9);
    }
}

// Runs that look random, some of few values and some with one that comes too often. Most starts must have been met at least.
static void random_runs(void) {
    unsigned none = 0, first = 0, later = 0;
    for (int turn = 0; turn < RANDOM_RUNS; turn++) {
        size_t length = below(3000);
        uint32_t values = 20 + below(40);
        fill_biased(run, length, (uint8_t)below(256), below(45));
        for (size_t place = 0; place < length && turn % 4 == 0; place++) {
            run[place] = (uint8_t)(run[place] % values * 5);
        }
        uint64_t start = reference_screen(run, length);
        none += start == NONE;
        first += start == 0;
        later += start != NONE && start != 0;
        expect(run, length, start, "random run");
    }
    record(none > RANDOM_RUNS / 8, "random runs without a fault");
    record(first > RANDOM_RUNS / 8, "random runs with a fault at once");
    record(later > RANDOM_RUNS / 8, "random runs with a later fault");
}

// One that makes fewer comparisons has left some out.
static const struct group groups[] = {
    {"no_run", no_run, 2},
    {"lengths", lengths, 2 * 1101 + 11 * 256},
    {"occurrences", occurrences, 2 * (5 * 256 + 16)},
    {"offsets", offsets, 2 * 3 * (31 + 3 * 61)},
    {"distances", distances, 820},
    {"several_faults", several_faults, 8 * (4 * 24 + 2)},
    {"ends_of_pages", ends_of_pages, 60},
    {"neighbours", neighbours, 2 * 7 * 16},
    {"long_runs", long_runs, 13},
    {"beyond_32_bits", beyond_32_bits, 5},
    {"random_runs", random_runs, RANDOM_RUNS + 3},
};

int main(int count, char **words) {
    return run_groups(groups, sizeof groups / sizeof *groups, count, words);
}
