// Tables to look up in: random fit ones, and ones that miss being fit by little.
#include "tables.h"

#include "numbers.h"

#include <stdbool.h>
#include <stddef.h>

static bool is_among(const uint8_t *values, uint32_t count, uint32_t value) {
    for (uint32_t each = 0; each < count; each++) {
        if (values[each] == value) {
            return true;
        }
    }
    return false;
}

// A value below 2^m that is none of these. There must be one.
static uint8_t stranger(const uint8_t *values, uint32_t count, uint32_t m) {
    uint32_t value = below(power(m));
    while (is_among(values, count, value)) {
        value = below(power(m));
    }
    return (uint8_t)value;
}

// Makes the first values, a coset, twice as many by one difference.
static void double_coset(uint8_t *values, uint32_t count, uint32_t difference) {
    for (uint32_t each = 0; each < count; each++) {
        values[count + each] = (uint8_t)(values[each] ^ difference);
    }
}

// A random coset of 2^rank values, from one value on.
static void make_coset(uint8_t values[256], uint32_t m, uint32_t rank) {
    values[0] = (uint8_t)below(power(m));
    for (uint32_t count = 1; count < power(rank); count *= 2) {
        double_coset(values, count, values[0] ^ stranger(values, count, m));
    }
}

// Each of the values equally often, in random order.
static void fill_from(uint8_t *table, const uint8_t *values, struct shape shape) {
    for (uint32_t place = 0; place < power(shape.n); place++) {
        uint32_t other = below(place + 1);
        table[place] = table[other];
        table[other] = values[place % power(shape.rank)];
    }
}

void fill_fit(uint8_t *table, struct shape shape) {
    uint8_t values[256];
    make_coset(values, shape.m, shape.rank);
    fill_from(table, values, shape);
}

// Whatever it becomes: no other table that differs from a fit one in one entry is fit.
void change_entry(uint8_t *table, struct shape shape) {
    uint8_t *entry = &table[below(power(shape.n))];
    *entry = stranger(entry, 1, shape.m);
}

void fill_with_stranger(uint8_t *table, struct shape shape) {
    uint8_t values[256];
    make_coset(values, shape.m, shape.rank);
    values[below(power(shape.rank))] = stranger(values, power(shape.rank), shape.m);
    fill_from(table, values, shape);
}

// The half of a coset, and its quarter moved to a stranger and doubled there by another difference. The groups of both then differ, and no
// value is in both: the stranger is none of the whole coset, whose group has both groups in it.
void fill_from_two(uint8_t *table, struct shape shape) {
    uint8_t values[256];
    uint32_t half = power(shape.rank - 1), quarter = half / 2;
    make_coset(values, shape.m, shape.rank);
    uint32_t other = values[half] ^ values[0], moved = stranger(values, 2 * half, shape.m) ^ values[0];
    for (uint32_t each = 0; each < quarter; each++) {
        values[half + each] = (uint8_t)(values[each] ^ moved);
        values[half + quarter + each] = (uint8_t)(values[each] ^ moved ^ other);
    }
    fill_from(table, values, shape);
}

void fill_unequally(uint8_t *table, struct shape shape) {
    uint32_t entries = power(shape.n), times = power(shape.n - shape.rank);
    fill_fit(table, shape);
    uint8_t lost = table[below(entries)], gained = lost;
    while (gained == lost) {
        gained = table[below(entries)];
    }
    uint32_t moved = 1 + below(times - 1);
    for (uint32_t place = 0; moved > 0; place++) {
        if (table[place] == lost) {
            table[place] = gained;
            moved--;
        }
    }
}
