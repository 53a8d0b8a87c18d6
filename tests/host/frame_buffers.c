// Frames in buffers that only the system can lend: groups of frame_test.c.
#define _DEFAULT_SOURCE // for sysconf
#include "frame_buffers.h"

#include "cippazhey.h"
#include "frame_reference.h"
#include "frame_trial.h"
#include "pages.h"

#include <string.h>
#include <sys/mman.h>
#include <unistd.h>

// Long buffers.

#define BEYOND_32_BITS ((size_t)1 << 32)
enum { NEAR = 131072, WATCHED = 70000 };

// Only the first bytes and those around the end can be touched.
static uint8_t *lend_long_buffer(void) {
    uint8_t *lent = lend_pages(BEYOND_32_BITS + NEAR);
    protect(lent, NEAR, PROT_READ | PROT_WRITE);
    protect(lent + BEYOND_32_BITS - NEAR, 2 * NEAR, PROT_READ | PROT_WRITE);
    return lent;
}

// Whether a frame with long buffers does what one with its first bytes would do, and leaves the rest.
static bool long_frame(uint8_t *random, size_t random_length, uint8_t *scratch, size_t scratch_length, uint32_t refusal) {
    static uint8_t wanted[WATCHED];
    struct frame_trial trial = accepted_frame(), reference = trial;
    size_t watched = scratch_length < WATCHED ? scratch_length : WATCHED;
    uint8_t *last = scratch + scratch_length - 1;
    memcpy(random, trial.random, RANDOM_LENGTH);
    fill_random(scratch, watched);
    *last = 99;
    memcpy(wanted, scratch, watched);
    uint32_t got = cippazhey_encrypt_frame(trial.plaintext, trial.key[0], trial.key[1], trial.key[2], random, random_length, scratch,
                                           scratch_length, trial.share[0], trial.share[1], trial.share[2]);
    if (refusal == 0) {
        make_frame(reference_encrypt_frame, &reference);
        memset(wanted, 0, SCRATCH_LENGTH);
    }
    bool shares = memcmp(trial.share, reference.share, sizeof trial.share) == 0;
    bool kept = memcmp(scratch, wanted, watched) == 0 && (*last == 99 || scratch_length == SCRATCH_LENGTH);
    return got == refusal && shares && kept;
}

void long_buffers(void) {
    const size_t random_lengths[] = {632, 256 + 632, 65536 + 632, BEYOND_32_BITS, BEYOND_32_BITS + 632};
    const size_t scratch_lengths[] = {255, 256, 511, 512, 65536, 65536 + 255, BEYOND_32_BITS, BEYOND_32_BITS + 255};
    uint8_t *random = lend_long_buffer(), *scratch = lend_long_buffer();
    for (int each = 0; each < 5; each++) {
        for (int other = 0; other < 8; other++) {
            uint32_t refusal = each > 0 ? 26 : other > 0 ? 0 : 13;
            record(long_frame(random, random_lengths[each], scratch, scratch_lengths[other], refusal), "frame in long buffers");
        }
    }
    munmap(random, BEYOND_32_BITS + NEAR);
    munmap(scratch, BEYOND_32_BITS + NEAR);
}

// Pages without neighbours.

enum { RUNS = 12 };

// Where a buffer stands in its page: at the end, or at the beginning.
static uint8_t *place_in(uint8_t *page, size_t page_length, size_t length, bool at_end) {
    return at_end ? page + page_length - length : page;
}

// Whether a frame comes out right whose buffers each fill one end of a page.
static bool frame_in_pages(uint8_t *pages[BUFFERS], size_t page_length, struct frame_trial trial, uint32_t refusal, uint32_t ends) {
    struct buffer lent[BUFFERS];
    struct frame_trial reference = trial;
    uint32_t expected = make_frame(reference_encrypt_frame, &reference);
    list_buffers(&trial, lent);
    for (int each = 0; each < BUFFERS; each++) {
        uint8_t *place = place_in(pages[each], page_length, lent[each].length, ends >> each & 1);
        protect(pages[each], page_length, PROT_READ | PROT_WRITE);
        memcpy(place, lent[each].bytes, lent[each].length);
        lent[each].bytes = place;
        protect(pages[each], page_length, each >= SCRATCH && refusal == 0 ? PROT_READ | PROT_WRITE : PROT_READ);
    }
    bool same = call_with(cippazhey_encrypt_frame, lent) == refusal && expected == refusal;
    struct buffer wanted[BUFFERS];
    list_buffers(&reference, wanted);
    for (int each = 0; each < BUFFERS; each++) {
        same = same && memcmp(lent[each].bytes, wanted[each].bytes, lent[each].length) == 0;
    }
    return same;
}

void ends_of_pages(void) {
    const size_t lengths[][3] = {{632, 256, 0},  {632, 300, 0}, {631, 256, 26}, {633, 300, 26}, {632, 255, 13},
                                 {632, 300, 27}, {632, 0, 27},  {0, 0, 26},     {632, 0, 13}};
    size_t page_length = (size_t)sysconf(_SC_PAGESIZE);
    uint8_t *pages[BUFFERS];
    for (int each = 0; each < BUFFERS; each++) {
        pages[each] = lend_pages(3 * page_length) + page_length;
    }
    for (int each = 0; each < 9; each++) {
        for (int run = 0; run < RUNS; run++) {
            struct frame_trial trial = accepted_frame();
            trial.random_length = lengths[each][0];
            trial.scratch_length = lengths[each][1];
            if (lengths[each][2] == 27) {
                memset(trial.random + below(600), 7, 21);
            }
            uint32_t ends = run == 0 ? 0 : run == 1 ? 511 : below(512);
            record(frame_in_pages(pages, page_length, trial, (uint32_t)lengths[each][2], ends), "frame at the ends of pages");
        }
    }
}
