// The header against the archive, in C and in C++: the calls' types, each number of the enum, the lengths, what no fault is, the names of
// the parameters, and the helpers. Prints a line for each that is wrong; exits with 1 if one is. Compile it with CALL_BY_NAME,
// FRAME_BY_NAME, SELECT_BY_NAME, SCREEN_BY_NAME and CLEAR_BY_NAME, calls whose arguments are the names of the parameters in the header's order.
#include "cippazhey.h"
#include "cippazhey.h" // twice, for its guard

#include <stdio.h>
#include <string.h>

// The types that the archive's calls have: a header that says another does not compile.
typedef uint16_t plain_call(uint32_t, uint32_t, uint32_t, uint32_t, uint32_t, uint32_t, uint32_t, uint32_t, uint32_t, uint32_t,
                            const uint8_t *, size_t, uint8_t *, size_t);
static plain_call *const typed_call = cippazhey_plain_call;
typedef uint32_t frame_call(const uint8_t *, const uint8_t *, const uint8_t *, const uint8_t *, const uint8_t *, size_t, uint8_t *, size_t,
                            uint8_t *, uint8_t *, uint8_t *);
static frame_call *const typed_frame = cippazhey_encrypt_frame;
typedef uint32_t select_call(uint32_t, uint32_t, uint32_t, uint32_t, uint32_t, uint32_t, uint32_t, uint32_t, uint32_t, uint32_t, uint8_t *,
                             uint8_t *, uint8_t *);
static select_call *const typed_select = cippazhey_select;
typedef uint64_t screen_call(const uint8_t *, size_t);
static screen_call *const typed_screen = cippazhey_screen;
typedef void clear_call(uint8_t *, size_t);
static clear_call *const typed_clear = cippazhey_clear;

enum { METHOD, N, M, X0, R1, R2, S1, S2, R3, B, NUMBERS };

// A call at n = 3: its result, its numbers in the order above, its table, the lengths of table and scratch, and the last byte of
// that scratch. The others are zero.
struct trial {
    unsigned refusal, share;
    uint32_t number[NUMBERS];
    const uint8_t *table;
    size_t table_length, scratch_length;
    uint8_t last_byte;
};

static const uint8_t balanced[] = {0, 0, 1, 0, 1, 1, 0, 1};
static const uint8_t entry_2[] = {0, 0, 1, 0, 1, 1, 0, 2};
static const uint8_t unfit[] = {0, 0, 1, 0, 1, 1, 0, 0};
static const uint8_t two_values[] = {9, 9, 4, 9, 4, 4, 9, 4};
static const struct trial trials[] = {
    {CIPPAZHEY_ACCEPTED, 0, {3, 3, 1, 6, 1, 5, 1, 0, 4, 0}, balanced, 8, 8, 0},
    {CIPPAZHEY_ACCEPTED, 1, {2, 3, 1, 6, 1, 3, 0, 0, 3, 0}, balanced, 8, 8, 0},
    {CIPPAZHEY_ACCEPTED, 11, {2, 3, 4, 6, 1, 3, 15, 0, 3, 0}, two_values, 8, 8, 0},
    {CIPPAZHEY_ACCEPTED, 1, {5, 3, 1, 6, 1, 5, 0, 0, 0, 0}, balanced, 8, 16, 0},
    {CIPPAZHEY_REFUSED_METHOD, 0, {4, 3, 1, 6, 1, 5, 1, 0, 4, 1}, balanced, 8, 8, 0},
    {CIPPAZHEY_REFUSED_INPUT_WIDTH, 0, {3, 9, 1, 6, 1, 5, 1, 0, 4, 1}, balanced, 8, 8, 0},
    {CIPPAZHEY_REFUSED_OUTPUT_WIDTH, 0, {3, 3, 9, 6, 1, 5, 1, 0, 4, 1}, balanced, 8, 8, 0},
    {CIPPAZHEY_REFUSED_TABLE_LENGTH, 0, {3, 3, 1, 6, 1, 5, 1, 0, 4, 1}, balanced, 7, 8, 0},
    {CIPPAZHEY_REFUSED_TABLE_ENTRY, 0, {3, 3, 1, 6, 1, 5, 1, 0, 4, 1}, entry_2, 8, 8, 0},
    {CIPPAZHEY_REFUSED_UNFIT_TABLE, 0, {3, 3, 1, 6, 1, 5, 1, 0, 4, 1}, unfit, 8, 8, 0},
    {CIPPAZHEY_REFUSED_INPUT_SHARE, 0, {3, 3, 1, 8, 1, 5, 1, 0, 4, 1}, balanced, 8, 8, 0},
    {CIPPAZHEY_REFUSED_OUTPUT_MASK, 0, {3, 3, 1, 6, 1, 5, 2, 0, 4, 1}, balanced, 8, 8, 0},
    {CIPPAZHEY_REFUSED_OWN_MASK, 0, {3, 3, 1, 6, 1, 5, 1, 0, 4, 2}, balanced, 8, 8, 0},
    {CIPPAZHEY_REFUSED_OWN_MASK, 0, {5, 3, 1, 6, 1, 5, 1, 0, 4, 0}, balanced, 8, 16, 0},
    {CIPPAZHEY_REFUSED_OWN_MASK, 0, {5, 3, 1, 6, 1, 5, 1, 0, 0, 1}, balanced, 8, 16, 0},
    {CIPPAZHEY_REFUSED_SCRATCH_LENGTH, 0, {3, 3, 1, 6, 1, 5, 1, 0, 4, 1}, balanced, 8, 7, 0},
    {CIPPAZHEY_REFUSED_SCRATCH_LENGTH, 0, {5, 3, 1, 6, 1, 5, 1, 0, 0, 0}, balanced, 8, 15, 0},
    {CIPPAZHEY_REFUSED_DIRTY_SCRATCH, 0, {3, 3, 1, 6, 1, 5, 1, 0, 4, 1}, balanced, 8, 8, 1},
    {CIPPAZHEY_REFUSED_DIRTY_SCRATCH, 0, {5, 3, 1, 6, 1, 5, 1, 0, 0, 0}, balanced, 8, 16, 1},
};
enum { TRIALS = sizeof trials / sizeof *trials };

static int wrong;

static void hold(int right, const char *what, int which) {
    if (!right) {
        printf("wrong: %s %d\n", what, which);
        wrong = 1;
    }
}

// Passes each value for the parameter that the header gives its name to.
static uint16_t by_name(const struct trial *trial) {
    const uint32_t *number = trial->number;
    uint32_t method = number[METHOD], n = number[N], m = number[M], x0 = number[X0], r1 = number[R1], r2 = number[R2];
    uint32_t s1 = number[S1], s2 = number[S2], r3 = number[R3], b = number[B];
    const uint8_t *table = trial->table;
    size_t table_length = trial->table_length, scratch_length = trial->scratch_length;
    uint8_t scratch[16] = {0};
    scratch[scratch_length - 1] = trial->last_byte;
    return CALL_BY_NAME;
}

static void numbers_of_the_enum(void) {
    for (int each = 0; each < TRIALS; each++) {
        uint16_t result = by_name(&trials[each]);
        hold(result == trials[each].refusal * 256 + trials[each].share, "result of trial", each);
        hold(cippazhey_refusal_of(result) == trials[each].refusal, "refusal of trial", each);
        hold(cippazhey_share_of(result) == trials[each].share, "share of trial", each);
    }
}

static int alike(int place, int other) {
    return (place >= X0 && other <= R2) || (place == S1 && other == S2);
}

// The trials tell the parameters apart: some trial's result changes when two of its numbers are exchanged. Only x0, r1 and r2 are alike
// to the call, and s1 and s2: no result tells them apart, so that their names are compared as text.
static void places_of_the_numbers(void) {
    for (int place = 0; place < NUMBERS; place++) {
        for (int other = place + 1; other < NUMBERS; other++) {
            int differ = 0;
            for (int each = 0; each < TRIALS; each++) {
                struct trial exchanged = trials[each];
                exchanged.number[place] = trials[each].number[other];
                exchanged.number[other] = trials[each].number[place];
                differ += by_name(&exchanged) != by_name(&trials[each]);
            }
            hold((differ > 0) == !alike(place, other), "exchange of two numbers, the first", place);
        }
    }
}

// At n = m = 8, with x = 90, entry 90 ^ 255 and masks 1 and 2.
static void stated_scratch_length(void) {
    static uint8_t table[256], scratch[CIPPAZHEY_SCRATCH_LENGTH];
    for (int entry = 0; entry < 256; entry++) {
        table[entry] = (uint8_t)(255 - entry);
    }
    uint16_t enough = typed_call(5, 8, 8, 90 ^ 17 ^ 34, 17, 34, 1, 2, 0, 0, table, 256, scratch, CIPPAZHEY_SCRATCH_LENGTH);
    typed_clear(scratch, CIPPAZHEY_SCRATCH_LENGTH);
    uint16_t again = typed_call(5, 8, 8, 90 ^ 17 ^ 34, 17, 34, 1, 2, 0, 0, table, 256, scratch, CIPPAZHEY_SCRATCH_LENGTH);
    uint16_t less = typed_call(5, 8, 8, 90 ^ 17 ^ 34, 17, 34, 1, 2, 0, 0, table, 256, scratch, CIPPAZHEY_SCRATCH_LENGTH - 1);
    hold(enough == 166, "result at the stated scratch length", enough);
    hold(again == 166, "result on cleared scratch", again);
    hold(cippazhey_share_of(enough) == 166, "share at the stated scratch length", cippazhey_share_of(enough));
    hold(cippazhey_refusal_of(less) == CIPPAZHEY_REFUSED_SCRATCH_LENGTH, "refusal below the stated scratch length", less);
}

// The blocks of a frame: a plaintext, three key shares and three results.
enum { FRAME_BLOCKS = 7 };

// Passes each block and each length for the parameter that the header gives its name to.
static uint32_t frame_by_name(uint8_t blocks[FRAME_BLOCKS][16], const uint8_t *random, size_t random_length, size_t scratch_length) {
    uint8_t scratch[CIPPAZHEY_FRAME_SCRATCH_LENGTH];
    const uint8_t *plaintext = blocks[0], *key1 = blocks[1], *key2 = blocks[2], *key3 = blocks[3];
    uint8_t *share1 = blocks[4], *share2 = blocks[5], *share3 = blocks[6];
    return FRAME_BY_NAME;
}

// FIPS 197, appendix C.1, with shares that all differ: by name and by place the frame must have the same results.
static void encrypted_frame(void) {
    static const uint8_t ciphertext[] = {0x69, 0xc4, 0xe0, 0xd8, 0x6a, 0x7b, 0x04, 0x30, 0xd8, 0xcd, 0xb7, 0x80, 0x70, 0xb4, 0xc5, 0x5a};
    static uint8_t random[CIPPAZHEY_RANDOM_LENGTH + 1], scratch[CIPPAZHEY_FRAME_SCRATCH_LENGTH];
    static uint8_t named[FRAME_BLOCKS][16], placed[FRAME_BLOCKS][16];
    const size_t random_length = CIPPAZHEY_RANDOM_LENGTH, scratch_length = CIPPAZHEY_FRAME_SCRATCH_LENGTH;
    for (int place = 0; place < 16; place++) {
        named[0][place] = (uint8_t)(17 * place);
        named[2][place] = (uint8_t)(100 + 3 * place);
        named[3][place] = (uint8_t)(200 - 5 * place);
        named[1][place] = (uint8_t)(place ^ named[2][place] ^ named[3][place]);
    }
    for (int place = 0; place < CIPPAZHEY_RANDOM_LENGTH + 1; place++) {
        random[place] = (uint8_t)(7 * place);
    }
    memcpy(placed, named, sizeof named);
    uint32_t by_place = typed_frame(placed[0], placed[1], placed[2], placed[3], random, random_length, scratch, scratch_length, placed[4],
                                    placed[5], placed[6]);
    hold(by_place == CIPPAZHEY_ACCEPTED, "refusal of a frame by place", (int)by_place);
    hold(frame_by_name(named, random, random_length, scratch_length) == CIPPAZHEY_ACCEPTED, "refusal of a frame by name", 0);
    for (int place = 0; place < 16; place++) {
        hold((placed[4][place] ^ placed[5][place] ^ placed[6][place]) == ciphertext[place], "byte of the joined results", place);
    }
    for (int block = 0; block < FRAME_BLOCKS; block++) {
        hold(memcmp(named[block], placed[block], 16) == 0, "block of a frame by name", block);
    }
    uint32_t fewer = frame_by_name(named, random, random_length - 1, scratch_length);
    uint32_t more = frame_by_name(named, random, random_length + 1, scratch_length);
    uint32_t shorter = frame_by_name(named, random, random_length, scratch_length - 1);
    memset(random, 7, sizeof random);
    uint32_t faulty = frame_by_name(named, random, random_length, scratch_length);
    hold(fewer == CIPPAZHEY_REFUSED_RANDOM_LENGTH && more == fewer, "refusal of other random lengths", (int)fewer);
    hold(shorter == CIPPAZHEY_REFUSED_SCRATCH_LENGTH, "refusal of shorter scratch", (int)shorter);
    hold(faulty == CIPPAZHEY_REFUSED_FAULTY_RANDOM, "refusal of faulty random bytes", (int)faulty);
}

enum { WIDTH, Z0, Z1, Z2, C0, C1, C2, T1, T2, BIT, SELECT_NUMBERS, SHARES = 3 };

// Passes each number and each place for the parameter that the header gives its name to. Returned are the refusal and the results.
static uint32_t select_by_name(const uint32_t number[SELECT_NUMBERS]) {
    uint8_t shares[SHARES] = {0, 0, 0}, *share0 = &shares[0], *share1 = &shares[1], *share2 = &shares[2];
    uint32_t width = number[WIDTH], z0 = number[Z0], z1 = number[Z1], z2 = number[Z2], c0 = number[C0], c1 = number[C1], c2 = number[C2];
    uint32_t t1 = number[T1], t2 = number[T2], b = number[BIT];
    uint32_t refusal = SELECT_BY_NAME;
    return refusal << 24 | (uint32_t)shares[0] << 16 | (uint32_t)shares[1] << 8 | shares[2];
}

static uint32_t select_by_place(const uint32_t n[SELECT_NUMBERS]) {
    uint8_t shares[SHARES] = {0, 0, 0};
    uint32_t refusal = typed_select(n[0], n[1], n[2], n[3], n[4], n[5], n[6], n[7], n[8], n[9], &shares[0], &shares[1], &shares[2]);
    return refusal << 24 | (uint32_t)shares[0] << 16 | (uint32_t)shares[1] << 8 | shares[2];
}

// Their numbers differ enough that the results tell them apart.
static const uint32_t selections[][SELECT_NUMBERS] = {
    {4, 0x65, 0x17, 0xf0, 0, 0, 0, 3, 12, 0},
    {4, 0x65, 0x17, 0xf0, 1, 0, 0, 3, 12, 0},
    {2, 13, 4, 7, 0, 0, 0, 1, 3, 1},
};
enum { SELECTIONS = sizeof selections / sizeof *selections };

// Some result changes when two numbers are exchanged. Only c0, c1 and c2 are alike to the call.
static void places_of_select(void) {
    for (int place = 0; place < SELECT_NUMBERS; place++) {
        for (int other = place + 1; other < SELECT_NUMBERS; other++) {
            int differ = 0;
            for (int each = 0; each < SELECTIONS; each++) {
                uint32_t exchanged[SELECT_NUMBERS];
                memcpy(exchanged, selections[each], sizeof exchanged);
                exchanged[place] = selections[each][other];
                exchanged[other] = selections[each][place];
                differ += select_by_name(exchanged) != select_by_name(selections[each]);
            }
            hold((differ > 0) == !(place >= C0 && other <= C2), "exchange of two numbers of a selection, the first", place);
        }
    }
}

static void selected_half(void) {
    uint32_t number[SELECT_NUMBERS] = {4, 0x65, 0x17, 0xf0, 0, 1, 1, 3, 12, 1};
    for (int each = 0; each < SELECTIONS; each++) {
        hold(select_by_name(selections[each]) == select_by_place(selections[each]), "selection by name", each);
    }
    hold(select_by_name(number) == 0x050d00, "results of a high half", (int)select_by_name(number));
    number[C0] = 1;
    hold(select_by_name(number) == 0x060b0f, "results of a low half", (int)select_by_name(number));
    number[T2] = 16;
    hold(select_by_name(number) == (uint32_t)CIPPAZHEY_REFUSED_SELECT_INPUT << 24, "refusal of a selection's input", 0);
    number[WIDTH] = 9;
    hold(select_by_name(number) == (uint32_t)CIPPAZHEY_REFUSED_SELECT_WIDTH << 24, "refusal of a selection's width", 0);
    places_of_select();
}

static uint64_t screened(const uint8_t *run, size_t length) {
    return SCREEN_BY_NAME;
}

// 21 equal bytes are a fault; behind 600 others the last of them ends the first faulty window.
static void screened_run(void) {
    static uint8_t bytes[621];
    hold(screened(bytes, 0) == CIPPAZHEY_NO_FAULT, "screen of no bytes", 0);
    hold(screened(bytes, 20) == CIPPAZHEY_NO_FAULT, "screen of bytes", 20);
    hold(screened(bytes, 21) == 0, "screen of bytes", 21);
    for (int place = 0; place < 600; place++) {
        bytes[place] = (uint8_t)(1 + place % 255);
    }
    hold(screened(bytes, 620) == CIPPAZHEY_NO_FAULT, "screen of bytes", 620);
    hold(screened(bytes, 621) == 621 - 512, "screen of bytes", 621);
    hold(typed_screen(bytes, 621) == 621 - 512, "screen by place", 621);
    hold(CIPPAZHEY_NO_FAULT == (uint64_t)-1, "what no fault is", 0);
}

static void cleared_buffer(void) {
    uint8_t room[] = {1, 2, 3, 4, 5};
    uint8_t *buffer = room + 1;
    size_t length = 3;
    CLEAR_BY_NAME;
    for (int place = 0; place < 5; place++) {
        int beside = place == 0 || place == 4;
        hold(room[place] == (beside ? place + 1 : 0), "place in or beside the cleared buffer", place);
    }
}

int main(void) {
    numbers_of_the_enum();
    places_of_the_numbers();
    stated_scratch_length();
    encrypted_frame();
    selected_half();
    screened_run();
    cleared_buffer();
    return wrong;
}
