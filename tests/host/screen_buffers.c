// Runs whose place in memory or whose length matters: groups of screen_test.c.
#define _DEFAULT_SOURCE // for sysconf
#include "screen_buffers.h"

#include "pages.h"
#include "screen_trial.h"

#include <string.h>
#include <sys/mman.h>
#include <unistd.h>

// Fills a run with one value, with none too often, or with 21 of one in its last window. Returns the first faulty window's start.
enum { ONE_VALUE, NO_FAULT, LAST_WINDOW, CONTENTS };

static uint64_t fill(uint8_t *run, size_t length, int content) {
    size_t start = length < WINDOW ? 0 : length - WINDOW;
    fill_without(run, length, (uint8_t)length);
    if (content == NO_FAULT || length <= MOST) {
        return NONE;
    }
    if (content == ONE_VALUE) {
        memset(run, (int)(length % 256), length);
        return 0;
    }
    spread(run, (uint8_t)length, MOST + 1, start, length - 1);
    return start;
}

void ends_of_pages(void) {
    const size_t lengths[] = {0, 1, 20, 21, 511, 512, 513, 632, 4096, 5000};
    size_t page = (size_t)sysconf(_SC_PAGESIZE), room = (5000 + page - 1) / page * page;
    uint8_t *pages = lend_pages(page + room + page) + page;
    for (size_t each = 0; each < sizeof lengths / sizeof *lengths; each++) {
        for (int content = 0; content < CONTENTS; content++) {
            uint8_t *at_end = pages + room - lengths[each];
            protect(pages, room, PROT_READ | PROT_WRITE);
            uint64_t start = fill(pages, lengths[each], content);
            protect(pages, room, PROT_READ);
            expect(pages, lengths[each], start, "run at the beginning of a page");
            protect(pages, room, PROT_READ | PROT_WRITE);
            fill(at_end, lengths[each], content);
            protect(pages, room, PROT_READ);
            expect(at_end, lengths[each], start, "run at the end of a page");
        }
    }
    munmap(pages - page, page + room + page);
}

enum { GUARD = 64 };

// 20 of a value in the run's last window, and the same value on both sides of the run.
void neighbours(void) {
    static uint8_t room[GUARD + 2000 + GUARD], before[sizeof room];
    const size_t lengths[] = {20, 21, 511, 512, 513, 632, 1500};
    for (size_t each = 0; each < sizeof lengths / sizeof *lengths; each++) {
        for (size_t offset = 0; offset < 16; offset++) {
            size_t length = lengths[each], start = length < WINDOW ? 0 : length - WINDOW;
            uint8_t value = (uint8_t)(offset * 16), *run = room + GUARD + offset;
            memset(room, value, sizeof room);
            fill_without(run, length, value);
            spread(run, value, MOST, start, length - 1);
            memcpy(before, room, sizeof room);
            expect(run, length, NONE, "run between bytes of its value");
            record(memcmp(before, room, sizeof room) == 0, "what stands there afterwards");
        }
    }
}

void long_runs(void) {
    static uint8_t run[140000];
    const size_t offsets[] = {65025, 65535, 65536, 131072};
    fill_without(run, sizeof run, 7);
    expect(run, sizeof run, NONE, "a long run without a fault");
    for (size_t each = 0; each < sizeof offsets / sizeof *offsets; each++) {
        fill_without(run, sizeof run, 7);
        spread(run, 7, MOST + 1, offsets[each], offsets[each] + WINDOW);
        expect(run, sizeof run, NONE, "21 of a value in 513 bytes far behind");
        fill_without(run, sizeof run, 7);
        spread(run, 7, MOST + 1, offsets[each], offsets[each] + WINDOW - 1);
        expect(run, sizeof run, offsets[each], "a fault far behind");
        // whatever stands behind the window
        memset(run + offsets[each] + WINDOW, 7, 1000);
        expect(run, sizeof run, offsets[each], "the first of many far behind");
    }
}

#define BEYOND_32_BITS ((size_t)1 << 32)

// The pages are zeros but for the first, where no value stands too often: the 21st zero ends the first faulty window.
void beyond_32_bits(void) {
    const size_t lengths[] = {0, 1, 21, 600, 4000};
    size_t page = (size_t)sysconf(_SC_PAGESIZE);
    uint8_t *run = lend_pages(BEYOND_32_BITS + page);
    protect(run, BEYOND_32_BITS + page, PROT_READ);
    protect(run, page, PROT_READ | PROT_WRITE);
    fill_without(run, page, 0);
    for (size_t each = 0; each < sizeof lengths / sizeof *lengths; each++) {
        expect(run, BEYOND_32_BITS + lengths[each], page + MOST + 1 - WINDOW, "a run beyond 32 bits");
    }
    munmap(run, BEYOND_32_BITS + page);
}
