// Compares the exported selection with the reference, and both with what is known of the results. Run it with a group's name for that group
// alone. Prints a line of counts for each group of calls and the first that differ; exits with 1 if any differs, or if comparisons are
// missing. The twentieth difference ends it.
#define _DEFAULT_SOURCE // for sysconf
#include "pages.h"
#include "select_trial.h"

#include <string.h>
#include <sys/mman.h>
#include <unistd.h>

// A control may do with fewer.
#ifndef RANDOM_CALLS
#define RANDOM_CALLS 100000
#endif
#if RANDOM_CALLS < 1000
#error too few random calls are made
#endif

// Numbers of their widths.
static struct selection drawn(uint32_t width) {
    struct selection s = {width, {0}};
    for (int place = 0; place < NUMBERS; place++) {
        s.number[place] = below(limit(width, place));
    }
    return s;
}

// Every word and bit with every choice of masks: all numbers below their limits.
static void all_numbers(uint32_t width) {
    struct selection s = {width, {0}};
    int place = 0;
    while (place < NUMBERS) {
        expect(&s, CIPPAZHEY_ACCEPTED, "all numbers of a width");
        for (place = 0; place < NUMBERS && ++s.number[place] == limit(width, place); place++) {
            s.number[place] = 0;
        }
    }
}

static void width_1(void) {
    all_numbers(1);
}

static void width_2(void) {
    all_numbers(2);
}

// Each number 0 or the greatest of its width.
static void extremes(void) {
    for (uint32_t width = 1; width <= MOST_WIDTH; width++) {
        for (uint32_t set = 0; set < power(NUMBERS); set++) {
            struct selection s = {width, {0}};
            for (int place = 0; place < NUMBERS; place++) {
                s.number[place] = set >> place & 1 ? limit(width, place) - 1 : 0;
            }
            expect(&s, CIPPAZHEY_ACCEPTED, "numbers that are 0 or the greatest");
        }
    }
}

// One bit of one number, beside zeros and with the contrary bit to choose by.
static void single_bits(void) {
    for (uint32_t width = 1; width <= MOST_WIDTH; width++) {
        for (int place = 0; place < NUMBERS; place++) {
            for (uint32_t value = 1; value < limit(width, place); value *= 2) {
                struct selection s = {width, {0}};
                s.number[place] = value;
                expect(&s, CIPPAZHEY_ACCEPTED, "one bit of one number");
                s.number[C1] ^= 1;
                expect(&s, CIPPAZHEY_ACCEPTED, "one bit of one number, and the other half");
            }
        }
    }
}

static void random_calls(void) {
    for (int turn = 0; turn < RANDOM_CALLS; turn++) {
        struct selection s = drawn(1 + below(MOST_WIDTH));
        expect(&s, CIPPAZHEY_ACCEPTED, "random numbers");
    }
}

// Widths beside those that are accepted, and those that come to one of them when they are cut to 8 or 16 bits or taken for numbers with a
// sign. The numbers fit some width, or none.
static void refused_widths(void) {
    const uint32_t widths[] = {0, 9, 10, 16, 255, 256, 257, 264, 265, 512 + 4, 65536, 65537, 65544, 65545, 16777217, 0x80000000u, 0x80000001u,
                               0x80000008u, 0xfffffff8u, 0xffffffffu};
    for (size_t each = 0; each < sizeof widths / sizeof *widths; each++) {
        for (uint32_t fits = 0; fits <= MOST_WIDTH; fits++) {
            struct selection s = {0, {0}};
            if (fits > 0) {
                s = drawn(fits);
            }
            s.width = widths[each];
            expect(&s, CIPPAZHEY_REFUSED_SELECT_WIDTH, "a width that is refused");
            memset(s.number, 0xff, sizeof s.number);
            expect(&s, CIPPAZHEY_REFUSED_SELECT_WIDTH, "a width that is refused, before its numbers");
        }
    }
}

// A number around its limit and far beyond, some of which come to less than the limit when they are cut or have a sign.
static void refused_numbers(void) {
    for (uint32_t width = 1; width <= MOST_WIDTH; width++) {
        for (int place = 0; place < NUMBERS; place++) {
            struct selection s = drawn(width);
            const uint32_t bound = limit(width, place), inside = s.number[place];
            const uint32_t values[] = {bound - 1, bound, bound + 1, 2 * bound, inside + 0x80, inside + 0x100, inside + 0x8000,
                                       inside + 0x10000, inside + 0x1000000, inside + 0x7fff0000, inside + 0x80000000u, 0xffff0000u,
                                       0xffffff00u, 0xffffffffu};
            for (size_t each = 0; each < sizeof values / sizeof *values; each++) {
                s.number[place] = values[each];
                expect(&s, known_refusal(&s), "a number around its limit or beyond");
            }
        }
    }
}

// Each set of numbers that are too large, at a width.
static void too_large(uint32_t width, uint32_t limits_of, uint32_t refusal, const char *what) {
    for (uint32_t set = 1; set < power(NUMBERS); set++) {
        struct selection s = drawn(limits_of);
        s.width = width;
        for (int place = 0; place < NUMBERS; place++) {
            s.number[place] += set >> place & 1 ? limit(limits_of, place) : 0;
        }
        expect(&s, refusal, what);
    }
}

// Several at once, whose exclusive or may be small, and beside a width that is refused first.
static void several_refused(void) {
    for (uint32_t width = 1; width <= MOST_WIDTH; width++) {
        too_large(width, width, CIPPAZHEY_REFUSED_SELECT_INPUT, "several numbers too large");
    }
    too_large(0, 1, CIPPAZHEY_REFUSED_SELECT_WIDTH, "width 0 and numbers too large");
    too_large(9, 8, CIPPAZHEY_REFUSED_SELECT_WIDTH, "width 9 and numbers too large");
}

// Any numbers: of their widths, just beyond, or any.
static void random_numbers(void) {
    unsigned accepted = 0, of_width = 0, of_numbers = 0;
    for (int turn = 0; turn < RANDOM_CALLS; turn++) {
        uint32_t fits = 1 + below(MOST_WIDTH), kind = below(2 * NUMBERS);
        struct selection s = drawn(fits);
        if (kind < NUMBERS) {
            s.number[kind] = below(2) ? limit(fits, (int)kind) + below(4) : below(0xffffffffu);
        }
        if (below(8) == 0) {
            s.width = below(2) ? below(12) : below(0xffffffffu);
        }
        uint32_t refusal = known_refusal(&s);
        accepted += refusal == CIPPAZHEY_ACCEPTED;
        of_width += refusal == CIPPAZHEY_REFUSED_SELECT_WIDTH;
        of_numbers += refusal == CIPPAZHEY_REFUSED_SELECT_INPUT;
        expect(&s, refusal, "any numbers");
    }
    record(accepted > RANDOM_CALLS / 4, "random numbers that are accepted");
    record(of_width > RANDOM_CALLS / 32, "random widths that are refused");
    record(of_numbers > RANDOM_CALLS / 4, "random numbers that are refused");
}

// The results at any three places of eight, in any order.
static void places(void) {
    for (size_t each = 0; each < 8 * 8 * 8; each++) {
        const size_t at[SHARES] = {4 + each % 8, 4 + each / 8 % 8, 4 + each / 64};
        if (at[0] == at[1] || at[0] == at[2] || at[1] == at[2]) {
            continue;
        }
        struct selection s = drawn(MOST_WIDTH);
        expect_at(&s, CIPPAZHEY_ACCEPTED, at, "places of the results");
        s.number[T1] = limit(MOST_WIDTH, T1);
        expect_at(&s, CIPPAZHEY_REFUSED_SELECT_INPUT, at, "places of the results, refused");
        s.width = MOST_WIDTH + 1;
        expect_at(&s, CIPPAZHEY_REFUSED_SELECT_WIDTH, at, "places of the results, the width refused");
    }
}

// Makes a call whose results stand at the beginning or the end of three pages that have no neighbours. Refused, they can't be written.
static void call_on_pages(uint8_t *pages, size_t page, unsigned ends, uint32_t refusal) {
    struct selection s = drawn(MOST_WIDTH);
    const uint32_t *n = s.number;
    uint8_t *at[SHARES], known[SHARES];
    s.number[B] += refusal == CIPPAZHEY_REFUSED_SELECT_INPUT ? 2 : 0;
    s.width += refusal == CIPPAZHEY_REFUSED_SELECT_WIDTH ? 1 : 0;
    for (unsigned each = 0; each < SHARES; each++) {
        uint8_t *first = pages + (2 * each + 1) * page;
        protect(first, page, PROT_READ | PROT_WRITE);
        memset(first, 0, page);
        protect(first, page, refusal == CIPPAZHEY_ACCEPTED ? PROT_READ | PROT_WRITE : PROT_READ);
        at[each] = first + (ends >> each & 1 ? page - 1 : 0);
    }
    uint32_t got = cippazhey_select(s.width, n[Z0], n[Z1], n[Z2], n[C0], n[C1], n[C2], n[T1], n[T2], n[B], at[0], at[1], at[2]);
    known_shares(&s, known);
    bool good = got == refusal;
    for (unsigned each = 0; each < SHARES; each++) {
        good = good && *at[each] == (refusal == CIPPAZHEY_ACCEPTED ? known[each] : 0);
    }
    record(good, "results at the ends of pages");
}

static void ends_of_pages(void) {
    const uint32_t refusals[] = {CIPPAZHEY_ACCEPTED, CIPPAZHEY_REFUSED_SELECT_WIDTH, CIPPAZHEY_REFUSED_SELECT_INPUT};
    size_t page = (size_t)sysconf(_SC_PAGESIZE), length = (2 * SHARES + 1) * page;
    uint8_t *pages = lend_pages(length);
    for (unsigned ends = 0; ends < 8; ends++) {
        for (int each = 0; each < 3; each++) {
            call_on_pages(pages, page, ends, refusals[each]);
        }
    }
    munmap(pages, length);
}

// One that makes fewer comparisons has left some out.
static const struct group groups[] = {
    {"width_1", width_1, 8 * 512},
    {"width_2", width_2, 32 * 32768},
    {"extremes", extremes, 8 * 512},
    {"single_bits", single_bits, 2 * (8 * 36 + 4 * 8)},
    {"random_calls", random_calls, RANDOM_CALLS},
    {"refused_widths", refused_widths, 20 * 9 * 2},
    {"refused_numbers", refused_numbers, 8 * 9 * 14},
    {"several_refused", several_refused, 10 * 511},
    {"random_numbers", random_numbers, RANDOM_CALLS + 3},
    {"places", places, 8 * 7 * 6 * 3},
    {"ends_of_pages", ends_of_pages, 8 * 3},
};

int main(int count, char **words) {
    return run_groups(groups, sizeof groups / sizeof *groups, count, words);
}
