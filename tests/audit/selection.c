// A choice of one half by a masked bit: its calls, at all widths, and whether they can be judged. An input is a word beside a bit.
#include "selection.h"
#include "frame.h"
#include "parts.h"
#include "random.h"
#include "study.h"

#include <stdio.h>
#include <stdlib.h>
#include <string.h>

enum { WORDS = 6, BITS = 2, WIDEST = 8, LOG_LENGTH = 28, SETTINGS = 8, CHOICES = 64, APART = 64, UNTOUCHED = 0xa5 };

// The masks of a call. Those before SUMMED are added to words or halves, the others are single bits.
enum { Z1, Z2, T1, T2, C1, C2, B, MASKS, SUMMED = C1 };

static const struct selection *selection;
static const uint32_t *words;
static uint8_t shares[3][APART]; // the first byte of each is lent
static uint32_t entries[LOG_LENGTH];
static uintptr_t *way; // the addresses that the calls before executed
static size_t way_length;

// The numbers of the call that is made next: its width, the word and the bit, and all masks. z0 and c0 follow from them.
static uint32_t width, z, c, m[MASKS];

static uint32_t width_of(int mask) {
    return mask <= Z2 ? 2 * width : mask <= T2 ? width : 1;
}

static uint32_t half(uint32_t which, uint32_t word) {
    return which ? word % (1u << width) : word >> width;
}

// Whether the three results, in their places or at the log's end, are the halves that the bit chooses, with t1, t2 and both added.
static bool right_answer(void) {
    uint32_t expected[] = {half(c, z ^ m[Z1] ^ m[Z2]) ^ m[T1], half(c, m[Z1]) ^ m[T2], half(c, m[Z2]) ^ m[T1] ^ m[T2]};
    for (uint32_t i = 0; i < 3; i++) {
        uint32_t logged = entries[LOG_LENGTH - 3 + i];
        if (selection->flags & LOGGED ? logged != (27 + i) * 65536 + expected[i] : shares[i][0] != expected[i]) return false;
    }
    return true;
}

// Makes one call; NULL, or why it cannot be judged.
static const char *one_call(runner *run, struct trace *trace) {
    struct call call = {selection->code,
                        {width, z ^ m[Z1] ^ m[Z2], m[Z1], m[Z2], c ^ m[C1] ^ m[C2], m[C1], m[C2], m[T1], m[T2], m[B]},
                        {{"first share", shares[0], 1}, {"second share", shares[1], 1}, {"third share", shares[2], 1}}};
    uint64_t result, *last = &call.arguments[10];
    if (selection->flags & LOGGED) {
        last[0] = (uintptr_t)entries, last[1] = LOG_LENGTH;
        call.lent[0] = (struct buffer){"log", entries, sizeof entries}, call.lent[1].length = 0;
    } else
        for (int i = 0; i < 3; i++) last[i] = (uintptr_t)shares[i];
    memset(shares, UNTOUCHED, sizeof shares);
    memset(entries, UNTOUCHED, sizeof entries);
    const char *trouble = run(trace, &call, &result);
    if (!trouble && watches(ANSWERS_PART) && ((uint32_t)result != 0 || !right_answer())) trouble = "wrong answer";
    return trouble;
}

static void print_numbers(void) {
    printf("z = %u, c = %u, z1 = %u, z2 = %u, t1 = %u, t2 = %u, c1 = %u, c2 = %u, b = %u\n", z, c, m[Z1], m[Z2], m[T1], m[T2], m[C1], m[C2],
           m[B]);
}

static void choose_input(size_t input) {
    z = words[input / BITS] % (1u << 2 * width), c = (uint32_t)(input % BITS);
}

static void choose_numbered(size_t input, size_t number) {
    choose_input(input);
    for (int i = 0; i < MASKS; i++) m[i] = take_bits(&number, width_of(i));
}

// In each setting of c1, c2 and b the other masks run through the same choices. Three are drawn, and the fourth is their exclusive or.
static void choose_setting(size_t input, size_t number) {
    static uint32_t drawn[CHOICES][SUMMED];
    size_t choice = number % CHOICES, setting = number / CHOICES;
    choose_input(input);
    for (int i = 0; i < SUMMED; i++) {
        uint32_t random = (random_byte() * 256u + random_byte()) % (1u << width_of(i));
        if (choice % 4 == 3) random = drawn[choice - 1][i] ^ drawn[choice - 2][i] ^ drawn[choice - 3][i];
        if (input == 0 && setting == 0) drawn[choice][i] = random;
        m[i] = drawn[choice][i];
    }
    for (int i = SUMMED; i < MASKS; i++) m[i] = take_bits(&setting, 1);
}

static size_t leaking_linearly(const struct probes *probes, size_t inputs) {
    size_t found = watches(SETTINGS_PART) ? leaking_settings(probes, inputs, SETTINGS) : 0;
    return found + leaking_sums(probes, inputs);
}

// Whether the calls take the way that those of the widths before took.
static bool same_way(const struct trace *trace) {
    if (!way || (way_length == trace->steps && !memcmp(way, trace->addresses, way_length * sizeof *way))) return true;
    printf("    another way than at the widths before\n");
    return false;
}

static int carry_out_here(const char *name, struct study *study) {
    struct trace trace;
    if (watches(WIDTHS_PART)) study->way = same_way;
    printf("%s, width %u, %s\n", selection->name, width, name);
    int found = carry_out(study, &trace);
    if (!way) {
        way = room(trace.steps, sizeof *way), way_length = trace.steps;
        memcpy(way, trace.addresses, way_length * sizeof *way);
    }
    end_trace(&trace);
    return found;
}

// Every choice of masks, for so many words beside each bit.
static int exhaustive(size_t count) {
    struct study study = {{8, 32}, count * BITS, (size_t)1 << (6 * width + 3), choose_numbered, one_call, print_numbers, leaking_pairs, NULL};
    if (selection->flags & LOGGED) study.division = watches(LOG_ENTRIES_PART) ? (struct division){4, 4} : (struct division){2, 2};
    return carry_out_here("exhaustive", &study);
}

// Each bit of a probe by settings, and each byte by sums.
static int linear(void) {
    struct study study = {{1, 1}, WORDS * BITS, SETTINGS * CHOICES, choose_setting, one_call, print_numbers, leaking_linearly, NULL};
    return carry_out_here("linear", &study);
}

int audit_selection(const struct selection *audited, bool small, bool large) {
    static const uint32_t all[] = {0, 1, 2, 3};
    // No bit, each alone, and all: an exclusive or of some bits of the word is another in one of these than in the first.
    static const uint32_t narrow[WORDS] = {0, 1, 2, 4, 8, 15};
    // Any two bits differ in one of these, and each bit in the first two.
    static const uint32_t wide[WORDS] = {0, 0xffff, 0x5555, 0x3333, 0x0f0f, 0x00ff};
    int found = SILENT;
    selection = audited;
    width = 1, words = all;
    if (small) found = exhaustive(4);
    width = 2, words = narrow;
    if (small && selection->words && found == SILENT) found = exhaustive(selection->words);
    words = wide;
    for (width = 3; width <= WIDEST && large && found == SILENT; width++) found = linear();
    return found;
}
