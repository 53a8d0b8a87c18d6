// The calls on tables that are fit, and on ones that miss it by little: a group of plain_call_test.c.
#ifndef FIT_TABLES_H
#define FIT_TABLES_H

// Every pair of widths and every number of values that occur, as far as there are such tables.
void fit_tables(void);

#endif
