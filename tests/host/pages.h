// Memory from the system, page by page, that may be read, written or neither.
#ifndef PAGES_H
#define PAGES_H

#include <stddef.h>
#include <stdint.h>

// So much memory, which can't be touched before it is allowed to. The program ends where the system has none.
uint8_t *lend_pages(size_t length);

// What may be done with it, as mprotect has it.
void protect(uint8_t *pages, size_t length, int protection);

#endif
