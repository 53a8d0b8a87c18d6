// Buffers that end where memory does: a group of plain_call_test.c.
#ifndef LENT_PAGES_H
#define LENT_PAGES_H

// Table and scratch before a page that can't be touched, and the table on one that can only be read.
void ends_of_pages(void);

#endif
