// Memory from the system, page by page, that may be read, written or neither.
#define _DEFAULT_SOURCE // for MAP_ANONYMOUS
#include "pages.h"

#include "groups.h"

#include <stdlib.h>
#include <sys/mman.h>

uint8_t *lend_pages(size_t length) {
    void *lent = mmap(NULL, length, PROT_NONE, MAP_PRIVATE | MAP_ANONYMOUS | MAP_NORESERVE, -1, 0);
    if (lent == MAP_FAILED) {
        record(false, "the system lends no memory");
        exit(1);
    }
    return lent;
}

void protect(uint8_t *pages, size_t length, int protection) {
    if (mprotect(pages, length, protection) != 0) {
        record(false, "the system does not protect memory");
        exit(1);
    }
}
