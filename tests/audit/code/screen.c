// A screen of random bytes in C, to try the audit on. Compiled with -DSCREEN=NAME and one of:
//   -DRING       a record of the last 512 bytes and a count for each value, and nothing else; the audit must pass it
//   -DLEAVING    and a zero byte ends it
//   -DSKIPPING   and a byte that takes its like's place is not counted
//   -DCOPYING    and all of the record is copied for each byte
//   -DSTARTING   and it is copied for each of the first 632 bytes
//   -DFILLING    and as much memory is cleared for each byte
//   -DMOVING     and all of the record is moved by one place for each byte
//   -DREREADING  and the byte that leaves is taken from the run, not from the record
//   -DTABLE      and a table says which counts are too high
#include <stddef.h>
#include <stdint.h>
#include <string.h>

enum { BYTES = 512, VALUES = 256, MOST = 20 };

struct window {
    uint8_t ring[BYTES];
    uint16_t counts[VALUES];
};

uint64_t SCREEN(const uint8_t *run, size_t length);

// Whether nothing is screened from this byte on.
static int ends(uint8_t byte) {
#ifdef LEAVING
    return byte == 0;
#endif
    return (void)byte, 0;
}

// Whether the counts stay as they are.
static int skipped(size_t at, uint8_t leaving, uint8_t byte) {
#ifdef SKIPPING
    return at >= BYTES && leaving == byte;
#endif
    return (void)at, (void)leaving, (void)byte, 0;
}

static int too_often(uint16_t count) {
#ifdef TABLE
    static const uint8_t too_high[MOST + 2] = {[MOST + 1] = 1};
    return too_high[count];
#endif
    return count > MOST;
}

// The record for the next byte: the same, or a copy.
static struct window *next(struct window *window, struct window *one, struct window *other, size_t at) {
#ifdef FILLING
    memset(other, 0, sizeof *other);
#endif
#if defined COPYING || defined STARTING
    size_t copied = 632;
#ifdef COPYING
    copied = SIZE_MAX;
#endif
    if (at >= copied) return window;
    struct window *copy = window == one ? other : one;
    memcpy(copy, window, sizeof *copy);
    return copy;
#endif
    return (void)one, (void)other, (void)at, window;
}

// Puts a byte in the place of the one that leaves.
static uint8_t replace(struct window *window, size_t at, uint8_t byte) {
    size_t place = at % BYTES;
#ifdef MOVING
    uint8_t first = window->ring[0];
    for (size_t i = 1; i < BYTES; i++) window->ring[i - 1] = window->ring[i];
    window->ring[BYTES - 1] = byte;
    return (void)place, first;
#endif
    uint8_t leaving = window->ring[place];
    window->ring[place] = byte;
    return leaving;
}

uint64_t SCREEN(const uint8_t *run, size_t length) {
    struct window one, other, *window = &one;
    memset(window, 0, sizeof *window);
    for (size_t at = 0; at < length && !ends(run[at]); at++) {
        window = next(window, &one, &other, at);
        uint8_t byte = run[at], leaving = replace(window, at, byte);
#ifdef REREADING
        leaving = at >= BYTES ? run[at - BYTES] : 0;
#endif
        if (skipped(at, leaving, byte)) continue;
        if (at >= BYTES) window->counts[leaving]--;
        if (too_often(++window->counts[byte])) return at < BYTES ? 0 : at - BYTES + 1;
    }
    return UINT64_MAX;
}
