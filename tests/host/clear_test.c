// Tries the clearing call: every byte of the buffer is zero afterwards, and none beside it is touched. Run it with a group's name for that
// group alone. Prints a line of counts for each group of buffers and the first that differ; exits with 1 if any differs, or if comparisons
// are missing. The twentieth difference ends it.
#include "cippazhey.h"
#include "groups.h"

#include <stdio.h>
#include <string.h>

enum { GUARD = 64, LONGEST = 1048576 + 3, ROOM = GUARD + LONGEST + GUARD };

static uint8_t before[ROOM], after[ROOM];
// Counts one comparison, with the buffer's length and what else tells it from the group's others.
static void note(bool good, const char *what, size_t length, size_t detail) {
    char text[100];
    snprintf(text, sizeof text, "%s, length %lu, %lu", what, (unsigned long)length, (unsigned long)detail);
    record(good, text);
}

// Fills a buffer and its guards with bytes of which none is zero. The buffer begins behind the first guard and the offset.
static void fill_dirty(size_t offset, size_t length) {
    for (size_t place = 0; place < GUARD + offset + length + GUARD; place++) {
        before[place] = (uint8_t)(1 + (offset + length + place * 7) % 255);
    }
}

static bool all_zero(const uint8_t *bytes, size_t length) {
    for (size_t place = 0; place < length; place++) {
        if (bytes[place] != 0) {
            return false;
        }
    }
    return true;
}

// Clears the buffer that was filled. Whether it is zero, and both guards are as before.
static bool clears(size_t offset, size_t length) {
    size_t start = GUARD + offset, end = start + length;
    memcpy(after, before, end + GUARD);
    cippazhey_clear(after + start, length);
    return all_zero(after + start, length) && memcmp(after, before, start) == 0 && memcmp(after + end, before + end, GUARD) == 0;
}

// Every length up to 600, at 16 addresses in a row, so that words and vectors of every alignment are met.
static void lengths(void) {
    for (size_t length = 0; length <= 600; length++) {
        for (size_t offset = 0; offset < 16; offset++) {
            fill_dirty(offset, length);
            note(clears(offset, length), "every byte dirty, offset", length, offset);
        }
    }
}

// Lengths beside which a count of 8 or 16 bits would stop, and a long one.
static void long_lengths(void) {
    const size_t tried[] = {65535, 65536, 65537, 65536 + 255, 65536 + 256, 131072, LONGEST};
    for (size_t each = 0; each < sizeof tried / sizeof *tried; each++) {
        fill_dirty(0, tried[each]);
        note(clears(0, tried[each]), "long buffer", tried[each], 0);
    }
}

// There is nothing to clear, and no address: that it returns is all.
static void no_buffer(void) {
    cippazhey_clear(NULL, 0);
    note(true, "NULL", 0, 0);
}

// A buffer of one value, for each value.
static void values(void) {
    const size_t tried[] = {1, 2, 16, 256, 300};
    for (size_t each = 0; each < sizeof tried / sizeof *tried; each++) {
        for (int value = 0; value < 256; value++) {
            fill_dirty(0, tried[each]);
            memset(before + GUARD, value, tried[each]);
            note(clears(0, tried[each]), "one value", tried[each], (size_t)value);
        }
    }
}

// One dirty byte among zeros, in each place: what is zero already must not stand for what follows.
static void places(void) {
    for (size_t length = 1; length <= 70; length++) {
        for (size_t place = 0; place < length; place++) {
            fill_dirty(0, length);
            memset(before + GUARD, 0, length);
            before[GUARD + place] = (uint8_t)(1 + (length + place) % 255);
            note(clears(0, length), "one dirty byte, place", length, place);
        }
    }
}

// One that makes fewer comparisons has left some out.
static const struct group groups[] = {
    {"no_buffer", no_buffer, 1},
    {"lengths", lengths, 9616},
    {"values", values, 1280},
    {"places", places, 2485},
    {"long_lengths", long_lengths, 7},
};

int main(int count, char **words) {
    return run_groups(groups, sizeof groups / sizeof *groups, count, words);
}
