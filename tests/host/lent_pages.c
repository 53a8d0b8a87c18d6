// Buffers that end where memory does: a group of plain_call_test.c.
#define _DEFAULT_SOURCE // for sysconf
#include "lent_pages.h"

#include "pages.h"
#include "trial.h"

#include <string.h>
#include <sys/mman.h>
#include <unistd.h>

// Two pages, of which the second can't be touched. Returns where the second begins.
static uint8_t *end_of_page(size_t page) {
    uint8_t *pages = lend_pages(2 * page);
    protect(pages, page, PROT_READ | PROT_WRITE);
    return pages + page;
}

// The call on scratch that ends there, whether it is accepted or refused.
static void call_before_end(const struct trial *trial, const uint8_t *table, uint8_t *end) {
    uint8_t wanted[LONGEST], *scratch = end - trial->scratch_length;
    memcpy(scratch, trial->scratch, trial->scratch_length);
    memcpy(wanted, trial->scratch, LONGEST);
    record(make_call(trial, table, scratch) == make_reference_call(trial, trial->table, wanted), "result at the end of a page");
    record(memcmp(scratch, wanted, trial->scratch_length) == 0, "scratch at the end of a page");
}

void ends_of_pages(void) {
    size_t page = (size_t)sysconf(_SC_PAGESIZE);
    uint8_t *end_of_table = end_of_page(page), *end_of_scratch = end_of_page(page);
    for (int each = 0; each < METHODS; each++) {
        for (uint32_t n = 1; n <= 8; n++) {
            struct trial trial = accepted(methods[each], n, 1 + below(8)), dirty = trial, shorter = trial;
            uint8_t *table = end_of_table - trial.table_length;
            memcpy(table, trial.table, trial.table_length);
            protect(end_of_table - page, page, PROT_READ);
            dirty.scratch[dirty.scratch_length - 1] = 1;
            shorter.scratch_length--;
            call_before_end(&trial, table, end_of_scratch);
            call_before_end(&dirty, table, end_of_scratch);
            call_before_end(&shorter, table, end_of_scratch);
            protect(end_of_table - page, page, PROT_READ | PROT_WRITE);
        }
    }
    munmap(end_of_table - page, 2 * page);
    munmap(end_of_scratch - page, 2 * page);
}
