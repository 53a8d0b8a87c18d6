// Calls worked by hand: a group of plain_call_test.c.
#ifndef BENCH_SHEET_H
#define BENCH_SHEET_H

// The bench sheet, as far as it speaks of the plain call, the tables and methods of later requests, and scratch that is not clean.
void bench_sheet(void);

#endif
