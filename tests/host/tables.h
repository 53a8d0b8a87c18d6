// Tables to look up in: random fit ones, and ones that miss being fit by little.
#ifndef TABLES_H
#define TABLES_H

#include <stdint.h>

// What a table is made of: a coset of a group of 2^rank values below 2^m, each of them in 2^(n - rank) entries. Rank is at most n and m.
struct shape {
    uint32_t n, m, rank;
};

// A random table of the shape, in random order. It is fit, whatever the shape is; where rank is m it is balanced.
void fill_fit(uint8_t *table, struct shape shape);

// These are not fit. One entry of a fit table changed: n is at least 2.
void change_entry(uint8_t *table, struct shape shape);

// As many values, each as often, but one of them is none of the coset's: rank is at least 2, and below m.
void fill_with_stranger(uint8_t *table, struct shape shape);

// The values of two cosets, of two different groups of rank - 1, as often as in a fit table: rank is at least 2, and below m.
void fill_from_two(uint8_t *table, struct shape shape);

// The values of the coset, but one of them in some entries that were another's, though not in all: rank is above 0, and below n.
void fill_unequally(uint8_t *table, struct shape shape);

#endif
