// Runs whose place in memory or whose length matters: groups of screen_test.c.
#ifndef SCREEN_BUFFERS_H
#define SCREEN_BUFFERS_H

// Each run at the beginning and at the end of pages that have no neighbours and can't be written: the system stops a screen that reads
// beside it or writes to it.
void ends_of_pages(void);

// Runs at 16 addresses in a row, with bytes on both sides that would make them faulty.
void neighbours(void);

// Faults beside which a place of 16 bits would stop.
void long_runs(void);

// Lengths that come to a few bytes when they are cut to 32 bits.
void beyond_32_bits(void);

#endif
