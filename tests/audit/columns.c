// Columns are not kept: for each bit only a number made of its moves from each input's first choice to the others, and its values at the first
// choices. Two columns' exclusive or is the same for all choices of each input just if both move alike; then the numbers are equal, so no
// leak is missed, and two that do not move alike have equal numbers once in 2^64. Both are exclusive ors over the calls, so those of two
// bits' exclusive or are the exclusive or of theirs.
#include "columns.h"
#include "parts.h"
#include "probes.h"

#include <stdbool.h>
#include <stdio.h>
#include <stdlib.h>
#include <string.h>

enum { BITS = 8 };

// A byte of a probe. Bit b of byte i of `firsts` is whether bit b differs between the first choices of inputs i + 1 and 0.
struct byte {
    uint32_t step, place;
    uint64_t moves[BITS], firsts;
};

struct columns {
    size_t inputs, each, calls; // calls so far
    struct byte *bytes;         // by step and place: all that some call has changed
    size_t count;
    uint64_t numbers[MOST_INPUTS * 64]; // of the calls, at random
};

struct columns *start_columns(size_t inputs, size_t each) {
    struct columns *columns = room(1, sizeof *columns);
    uint64_t state = 88172645463325252u; // xorshift
    columns->inputs = inputs, columns->each = each;
    if (inputs * each > sizeof columns->numbers / sizeof *columns->numbers || inputs > MOST_INPUTS) abort();
    for (size_t call = 0; call < inputs * each; call++) {
        state ^= state << 13, state ^= state >> 7, state ^= state << 17;
        columns->numbers[call] = state * 0x2545f4914f6cdd1du;
    }
    return columns;
}

void end_columns(struct columns *columns) {
    free(columns->bytes);
    free(columns);
}

// What a bit of this call adds to its number: at an input's first choice, all that the others of the input would.
static uint64_t number_of_call(const struct columns *columns) {
    size_t call = columns->calls;
    uint64_t number = columns->numbers[call];
    if (call % columns->each == 0)
        for (number = 0, call++; call % columns->each; call++) number ^= columns->numbers[call];
    return number;
}

// And what a byte adds to the first choices, a factor.
static uint64_t factor_of_call(const struct columns *columns) {
    size_t input = columns->calls / columns->each;
    uint64_t factor = 0;
    if (columns->calls % columns->each) return 0;
    for (size_t i = 1; i < columns->inputs; i++)
        if (input == 0 || input == i) factor |= (uint64_t)1 << 8 * (i - 1);
    return factor;
}

static void add_value(struct byte *byte, uint8_t value, uint64_t number, uint64_t factor) {
    for (int bit = 0; bit < BITS; bit++) byte->moves[bit] ^= number & -(uint64_t)(value >> bit & 1);
    byte->firsts ^= value * factor;
}

static int by_place(const void *one, const void *other) {
    const struct change *left = one, *right = other;
    if (left->step != right->step) return left->step < right->step ? -1 : 1;
    return left->place < right->place ? -1 : left->place > right->place;
}

// The trace has the steps in order, and the places of each step as they were noted.
static void sort_places(struct trace *trace) {
    for (size_t from = 0, to; from < trace->count; from = to) {
        for (to = from + 1; to < trace->count && trace->changes[to].step == trace->changes[from].step;) to++;
        if (to > from + 1) qsort(trace->changes + from, to - from, sizeof *trace->changes, by_place);
    }
}

// A byte that this call is the first to change at a step was in all calls before what it had been at the last step that any of them changed it
// at. One that this call does not change is what it was.
void add_call(struct columns *columns, struct trace *trace) {
    static struct byte before[PLACES]; // the last of each place, without this call
    static uint8_t now[PLACES];
    uint64_t number = number_of_call(columns), factor = factor_of_call(columns);
    struct byte *bytes = room(columns->count + trace->count, sizeof *bytes);
    const struct byte *old = columns->bytes, *old_end = old + columns->count;
    const struct change *change = trace->changes, *end = change + trace->count;
    size_t count = 0;
    memset(before, 0, sizeof before);
    memset(now, 0, sizeof now);
    sort_places(trace);
    while (old < old_end || change < end) {
        struct change at = old < old_end ? (struct change){old->step, old->place, 0} : *change;
        if (change < end && by_place(change, &at) <= 0) at = *change++, now[at.place] = (uint8_t)at.value;
        if (old < old_end && old->step == at.step && old->place == at.place)
            before[at.place] = *old++;
        else if (columns->calls && !watches(LATER_PART))
            continue;
        bytes[count] = before[at.place];
        bytes[count].step = at.step, bytes[count].place = at.place;
        add_value(&bytes[count++], now[at.place], number, factor);
    }
    free(columns->bytes);
    columns->bytes = bytes, columns->count = count, columns->calls++;
    trace->count = 0;
}

// A bit of one byte or of two bytes of one value, in the second case their exclusive or. The constant 0 stands at no place.
struct column {
    uint64_t moves, firsts;
    uint32_t step;
    uint16_t place, other; // the same for one byte
    uint8_t bit;
    bool taken;
};

// The columns so far that differ, found by their moves.
struct seen {
    struct column *slots;
    size_t room, count, leaking;
    const uintptr_t *addresses;
};

static void print_column(const struct seen *seen, const struct column *column) {
    char name[NAME_LENGTH];
    name_place(column->place, name);
    printf("bit %u of %s", column->bit, name);
    name_place(column->other, name);
    if (column->other != column->place) printf(" and %s", name);
    if (column->step == 0)
        printf(" at entry");
    else
        printf(" at %#lx (step %u)", (unsigned long)seen->addresses[column->step - 1], column->step);
}

// What never moves leaks alone.
static void leak(struct seen *seen, const struct column *column, const struct column *other) {
    if (seen->leaking++ >= SHOWN) return;
    printf("    leak: ");
    print_column(seen, column);
    if (column->moves) {
        printf(" with ");
        print_column(seen, other);
    }
    printf("\n");
}

static void put(struct seen *seen, struct column column) {
    size_t slot = column.moves % seen->room;
    while (seen->slots[slot].taken) slot = (slot + 1) % seen->room;
    seen->slots[slot] = column;
    seen->count++;
}

static void grow(struct seen *seen) {
    struct seen larger = {NULL, seen->room * 2, 0, seen->leaking, seen->addresses};
    larger.slots = room(larger.room, sizeof *larger.slots);
    for (size_t i = 0; i < seen->room; i++)
        if (seen->slots[i].taken) put(&larger, seen->slots[i]);
    free(seen->slots);
    *seen = larger;
}

// One that moves like another and begins otherwise leaks with it.
static void take(struct seen *seen, struct column column) {
    struct column unlike = {.taken = false};
    if (!(column.moves | column.firsts) || (!column.moves && !watches(ALONE_PART))) return;
    for (size_t slot = column.moves % seen->room; seen->slots[slot].taken; slot = (slot + 1) % seen->room) {
        const struct column *there = &seen->slots[slot];
        if (there->moves != column.moves) continue;
        if (there->firsts == column.firsts) return;
        unlike = *there;
    }
    put(seen, column);
    if (seen->count > seen->room / 2) grow(seen);
    if (unlike.taken && (column.moves == 0 || watches(TWOS_PART))) leak(seen, &column, &unlike);
}

// The bits of a byte; or of two, if there is another.
static void take_bits(struct seen *seen, const struct byte *byte, const struct byte *other) {
    static const struct byte none;
    struct column column = {0, 0, byte->step, (uint16_t)byte->place, (uint16_t)(other ? other : byte)->place, 0, true}, whole = column;
    if (!other) other = &none;
    whole.firsts = byte->firsts ^ other->firsts;
    for (; column.bit < BITS; column.bit++) {
        column.moves = byte->moves[column.bit] ^ other->moves[column.bit];
        column.firsts = whole.firsts >> column.bit & 0x0101010101010101u;
        if (watches(BITS_PART)) take(seen, column);
        whole.moves ^= column.moves << column.bit | column.moves >> (63 - column.bit) >> 1;
    }
    if (!watches(BITS_PART)) take(seen, whole);
}

static bool varies(const struct byte *byte) {
    uint64_t any = byte->firsts;
    for (int bit = 0; bit < BITS; bit++) any |= byte->moves[bit];
    return any != 0;
}

// A byte that was changed, and with it each other of its value; of two that were changed, the second finds the first.
static void take_byte(struct seen *seen, const struct byte latest[PLACES], const struct byte *byte) {
    uint32_t bytes, start = value_at(byte->place, &bytes);
    if (!varies(byte)) return;
    take_bits(seen, byte, NULL);
    for (uint32_t place = start; place < start + bytes && watches(BESIDE_PART); place++)
        if ((latest[place].step < byte->step || place < byte->place) && varies(&latest[place])) take_bits(seen, byte, &latest[place]);
}

size_t leaking_columns(const struct columns *columns, const uintptr_t *addresses) {
    static struct byte latest[PLACES];
    struct seen seen = {room(1 << 16, sizeof *seen.slots), 1 << 16, 0, 0, addresses};
    const struct byte *byte = columns->bytes, *end = byte + columns->count;
    memset(latest, 0, sizeof latest);
    put(&seen, (struct column){0, 0, 0, PLACES, PLACES, 0, true});
    while (byte < end) {
        const struct byte *first = byte;
        for (; byte < end && byte->step == first->step; byte++) latest[byte->place] = *byte;
        for (; first < byte; first++) take_byte(&seen, latest, first);
    }
    printf("    %lu bytes at steps, %lu columns that differ; leaking, alone or by twos: %lu\n", (unsigned long)columns->count,
           (unsigned long)seen.count, (unsigned long)seen.leaking);
    free(seen.slots);
    return seen.leaking;
}
