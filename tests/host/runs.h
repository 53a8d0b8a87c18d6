// Runs of bytes to screen, of which it is known how often a value stands where.
#ifndef RUNS_H
#define RUNS_H

#include <stddef.h>
#include <stdint.h>

// A window, and how often a value may stand in one.
enum { WINDOW = 512, MOST = 20 };

// Fills a run with all values but two, the given one and the next, in turns: each stands at most three times in a window.
void fill_without(uint8_t *run, size_t length, uint8_t value);

// Puts a value in so many places, two at least: the first, the last, and others evenly between them.
void spread(uint8_t *run, uint8_t value, size_t times, size_t first, size_t last);

// Fills a run with bytes that look random, but for a value that takes the place of others so many times in 1024.
void fill_biased(uint8_t *run, size_t length, uint8_t value, uint32_t times);

#endif
