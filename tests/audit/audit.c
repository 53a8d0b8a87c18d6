// Audits the machine code of one call: `audit OPERANDS SUBJECT METHOD [exhaustive | linear] [without PART]`. Exhaustive at small widths, then
// linear at n = m = 8, or one of both. Or of a whole frame, linear: `audit OPERANDS FRAME keys COUNT [without PART]`. Or of a screen, its way and
// where it touches memory: `audit OPERANDS SCREEN runs [without PART]`. Or of a choice of one half, as of a call, linear at widths 3 to 8:
// `audit OPERANDS SELECTION halves [exhaustive | linear] [without PART]`. OPERANDS is the table that operands.py makes of this program's listing.
// It exits with 0 where nothing leaks, with 1 where something does, with 2 where it can't tell, and says why: a wrong answer, control flow
// that depends on the numbers, an instruction that is not known, code at n = m = 8 that no small width runs. 3 is for wrong usage.
#include "columns.h"
#include "frame.h"
#include "operands.h"
#include "parts.h"
#include "screen.h"
#include "selection.h"
#include "study.h"
#include "subjects.h"

#include <stdio.h>
#include <stdlib.h>
#include <string.h>

enum { LONGEST = 256, RANDOM_INPUTS = 4, RANDOM_CHOICES = 24 };

static uint8_t table[LONGEST], scratch[2 * LONGEST];
static uint32_t entries[2400];
static const struct subject *subject;

// What differs from method to method: its number, whether it draws r3, how many bits b has, the bytes of scratch for an entry of the table,
// and the entries of a log besides the turns' and for each entry of the table.
static const struct method {
    uint32_t number;
    bool draws_r3;
    uint32_t bits_of_b;
    size_t scratch, outside, turns;
} methods[] = {{2, true, 0, 1, 10, 6}, {3, true, 1, 1, 10, 9}, {5, false, 0, 2, 7, 8}};
static const struct method *method;

// The numbers of the call that is made next: its widths, the secret, and all masks. x0 follows from them.
static struct widths {
    uint32_t n, m;
} w;
static uint32_t x;
static struct choice {
    uint32_t r1, r2, r3, s1, s2, b;
} c;

// The scratch before a call: zeros, or what method 2 or 5 leaves of it. What method 3 leaves does not depend on the input.
static void lend_scratch(void) {
    uint32_t entries = 1u << w.n, both = c.s1 ^ c.s2;
    memset(scratch, 0, sizeof scratch);
    for (uint32_t a = 0; a < entries; a++) {
        if (subject->flags & LEFT_BY_5)
            scratch[a] = (uint8_t)(table[a ^ c.r1] ^ c.s1), scratch[entries + a] = (uint8_t)(table[a ^ c.r1 ^ c.r2] ^ both);
        else if (subject->flags & (USED | CLEARS))
            scratch[a] = (uint8_t)(table[x ^ c.r3 ^ a] ^ both);
    }
}

// Whether there is an r3: the call's own, or that of the call before it.
static bool has_r3(void) {
    return method->draws_r3 || (subject->flags & USED && !(subject->flags & LEFT_BY_5));
}

// The table's entry under both masks, 19 beside no share, or a scratch of zeros.
static bool right_answer(uint32_t share, uint32_t result, size_t length) {
    static const uint8_t zeros[2 * LONGEST];
    if (subject->flags & CLEARS) return !memcmp(scratch, zeros, length);
    return result == (subject->flags & USED ? 19 * 256 : share);
}

// Makes one call; NULL, or why it cannot be judged.
static const char *one_call(runner *run, struct trace *trace) {
    size_t length = (size_t)1 << w.n, needed = method->scratch * length, log_length = method->outside + method->turns * length;
    struct call call = {subject->code,
                        {method->number, w.n, w.m, x ^ c.r1 ^ c.r2, c.r1, c.r2, c.s1, c.s2, method->draws_r3 ? c.r3 : 0, c.b,
                         (uintptr_t)table, length, (uintptr_t)scratch, needed, (uintptr_t)entries, log_length},
                        {{"table", table, length}, {"scratch", scratch, needed}, {"log", entries, sizeof *entries * log_length}}};
    struct call clearing = {subject->code, {(uintptr_t)scratch, needed}, {{"scratch", scratch, needed}}};
    uint64_t result;
    lend_scratch();
    memset(entries, 0, sizeof entries);
    const char *trouble = run(trace, subject->flags & CLEARS ? &clearing : &call, &result);
    uint32_t answer = (subject->flags & LOGGED ? entries[log_length - 1] : (uint32_t)result) & 65535u;
    if (!trouble && !right_answer(table[x] ^ c.s1 ^ c.s2, answer, needed) && watches(ANSWERS_PART)) trouble = "wrong answer";
    return trouble;
}

static void print_numbers(void) {
    printf("x = %u, r1 = %u, r2 = %u, r3 = %u, s1 = %u, s2 = %u, b = %u\n", x, c.r1, c.r2, c.r3, c.s1, c.s2, c.b);
}

static void print_title(const char *name) {
    printf("%s, method %u, n = %u, m = %u, %s%s\n", subject->name, method->number, w.n, w.m, name,
           subject->flags & CLEARS ? ", clearing used scratch" : subject->flags & USED ? ", on used scratch" : "");
}

static void choose_numbered(size_t input, size_t number) {
    x = (uint32_t)input;
    c.r1 = take_bits(&number, w.n), c.r2 = take_bits(&number, w.n), c.r3 = take_bits(&number, has_r3() ? w.n : 0);
    c.s1 = take_bits(&number, w.m), c.s2 = take_bits(&number, w.m), c.b = take_bits(&number, method->bits_of_b);
}

// Every input with every choice of masks. Where the call is refused, b is handled by itself alone and stays 0, and four inputs are enough: with
// every r3, or r1 and r2, each comes to every place of the table.
static int exhaustive(const uint8_t *lent_table) {
    size_t entries = (size_t)1 << w.n, inputs = subject->flags & USED && entries > 4 ? 4 : entries;
    uint32_t bit = subject->flags & USED ? 0 : method->bits_of_b;
    size_t each = (size_t)1 << ((has_r3() ? 3 : 2) * w.n + 2 * w.m + bit);
    struct study study = {{8, 32}, inputs, each, choose_numbered, one_call, print_numbers, leaking_pairs, NULL};
    struct trace trace;
    if (subject->flags & LOGGED) study.division = watches(LOG_ENTRIES_PART) ? (struct division){4, 4} : (struct division){2, 2};
    if (subject->flags & CLEARS) study.leaking = dependent_probes;
    memcpy(table, lent_table, entries);
    print_title("exhaustive");
    int found = carry_out(&study, &trace);
    if (w.n > 1) add_audited(&trace);
    end_trace(&trace);
    return found;
}

static uint32_t random_byte(void) {
    static uint32_t state = 2463534242u; // xorshift
    state ^= state << 13;
    state ^= state >> 17;
    state ^= state << 5;
    return state >> 24;
}

static void choose_randomly(size_t input, size_t number) {
    static const uint32_t inputs[RANDOM_INPUTS] = {0, 1, 90, 255};
    x = inputs[input];
    c = (struct choice){random_byte(), random_byte(), random_byte(), random_byte(), random_byte(), random_byte()};
    if (!has_r3()) c.r3 = 0;
    c.b &= method->bits_of_b;
    (void)number;
}

// Numbers below a power of two, equally often: both steps can be undone.
static uint32_t scattered(uint32_t place, uint32_t limit) {
    uint32_t odd_multiple = (place * 37 + 11) % limit;
    return odd_multiple ^ odd_multiple >> 3;
}

// The tables of the linear study: each value once, and each with an odd number of ones twice, which is fit and not balanced.
static uint8_t balanced_entry(uint32_t place) {
    return (uint8_t)scattered(place, LONGEST);
}
static uint8_t odd_entry(uint32_t place) {
    uint32_t upper_bits = scattered(place, LONGEST / 2);
    return (uint8_t)(2 * upper_bits + !__builtin_parity(upper_bits));
}

// Some inputs with choices of masks drawn at random, at n = m = 8. Each byte is a probe: where two numbers' exclusive or leaks, one of their
// bytes' does. A call that may take another way by its table must take fewer than so many instructions an entry.
static int linear(const char *name, bool same_code, uint8_t (*entry)(uint32_t place), size_t pace) {
    struct study study = {{1, 1}, RANDOM_INPUTS, RANDOM_CHOICES, choose_randomly, one_call, print_numbers, leaking_sums, NULL};
    struct trace trace;
    if (same_code && watches(WIDTHS_PART)) study.way = all_audited;
    if (!watches(BYTES_PART)) study.division = (struct division){8, 8};
    if (subject->flags & CLEARS) study.leaking = dependent_probes;
    for (uint32_t i = 0; i < LONGEST; i++) table[i] = entry(i);
    w.n = w.m = 8;
    print_title(name);
    int found = carry_out(&study, &trace);
    if (found == SILENT && subject->flags & BY_TABLE && watches(PACE_PART) && trace.steps >= pace * LONGEST) {
        printf("    too many instructions an entry\n");
        found = UNKNOWN;
    }
    end_trace(&trace);
    return found;
}

// The linear cases of the subject, as long as nothing leaks.
static int audit_large(bool same_code) {
    int found = linear("linear", same_code, balanced_entry, 30);
    bool by_table = subject->flags & BY_TABLE && watches(FIT_PART);
    return found == SILENT && by_table ? linear("linear, 128 values", same_code, odd_entry, 120) : found;
}

// The exhaustive cases of the subject, if `small`; then the linear ones, if `large` and nothing leaks so far.
static int audit(bool small, bool large) {
    enum { FIRST_FIT = 6, FIT_CASES = 5 };
    static const struct {
        uint32_t n, m;
        uint8_t table[8];
    } cases[] = {{1, 1, {1, 0}},       {2, 1, {0, 1, 1, 0}}, {2, 2, {2, 0, 3, 1}},
                 {1, 1, {0, 1}},       {2, 1, {1, 1, 0, 0}}, {2, 2, {0, 1, 3, 2}},
                 {1, 2, {0, 3}},       {2, 2, {1, 2, 1, 2}}, {2, 3, {5, 6, 0, 3}}, // these and the next two are fit and not balanced
                 {1, 4, {0, 15}},      {1, 1, {1, 1}},
                 {2, 1, {0, 0, 0, 1}}, // not fit: what leaks is whether the input is 3
                 // Up to n = 2 every fit table is affine, and then two leftovers of a call tell no more than one. This one is not.
                 {3, 1, {0, 0, 0, 1, 0, 1, 1, 1}},
    };
    int found = small && subject->cases == 0 ? UNKNOWN : SILENT;
    for (size_t i = subject->first; small && i < subject->first + subject->cases && found != UNKNOWN; i++) {
        if (i >= FIRST_FIT && i < FIRST_FIT + FIT_CASES && !watches(FIT_PART)) continue;
        w.n = cases[i].n, w.m = cases[i].m;
        int here = exhaustive(cases[i].table);
        if (here > found) found = here;
        if (subject->flags & CONTROL && found == LEAKS) break;
    }
    return large && found == SILENT ? audit_large(small && !(subject->flags & BY_WIDTH)) : found;
}

// Leaves out a part, if the words that are left ask for it. False where they say anything else.
static bool take_part(int count, char **words) {
    if (count == 0) return true;
    if (count != 2 || strcmp(words[0], "without") || !leave_out(words[1])) return false;
    printf("without %s:\n", words[1]);
    return true;
}

// Which of both is asked for, exhaustive or linear: both where no word says so. Returns how many words do.
static int take_cases(int count, char **words, bool *small, bool *large) {
    *small = count == 0 || strcmp(words[0], "linear");
    *large = count == 0 || strcmp(words[0], "exhaustive");
    return !*small || !*large;
}

// NULL where there is none
static const struct method *method_numbered(const char *word) {
    for (size_t i = 0; i < sizeof methods / sizeof *methods; i++)
        if (methods[i].number == (uint32_t)atoi(word)) return &methods[i];
    return NULL;
}

int main(int count, char **words) {
    bool small, large;
    if (count >= 5 && !strcmp(words[3], "keys")) {
        const struct frame *frame = frame_named(words[2]);
        int keys = atoi(words[4]);
        if (frame && keys > 1 && keys <= MOST_INPUTS && take_part(count - 5, words + 5) && read_operands(words[1]))
            return audit_frame(frame, (size_t)keys);
    } else if (count >= 4 && !strcmp(words[3], "runs")) {
        const struct screen *screen = screen_named(words[2]);
        if (screen && take_part(count - 4, words + 4) && read_operands(words[1])) return audit_screen(screen);
    } else if (count >= 4) {
        const struct selection *selection = strcmp(words[3], "halves") ? NULL : selection_named(words[2]);
        int next = 4 + take_cases(count - 4, words + 4, &small, &large);
        subject = subject_named(words[2]);
        method = method_numbered(words[3]);
        bool fits = selection || (subject && method);
        if (fits && take_part(count - next, words + next) && read_operands(words[1]))
            return selection ? audit_selection(selection, small, large) : audit(small, large);
    }
    fprintf(stderr, "usage: audit OPERANDS SUBJECT METHOD [exhaustive | linear] [without PART]\n"
                    "       audit OPERANDS FRAME keys COUNT [without PART]\n"
                    "       audit OPERANDS SCREEN runs [without PART]\n"
                    "       audit OPERANDS SELECTION halves [exhaustive | linear] [without PART]\n");
    return WRONG_USAGE;
}
