// The screening of random bytes in C, as a careful engineer would write it without proofs: see baseline.h.
#include "baseline.h"
#include <string.h>

enum { BYTES = 512, VALUES = 256, MOST = 20 };

// The last bytes, byte i of a run at i mod 512, and how often each value stands among them.
struct window {
    uint8_t ring[BYTES];
    uint16_t counts[VALUES];
};

// No byte leaves before 512 have come, so the first loop has nothing to take off, and the ring need not be cleared.
uint64_t baseline_screen(const uint8_t *run, size_t length) {
    struct window window;
    size_t at = 0;
    memset(window.counts, 0, sizeof window.counts);
    for (; at < length && at < BYTES; at++) {
        window.ring[at] = run[at];
        if (++window.counts[run[at]] > MOST) return 0;
    }
    for (; at < length; at++) {
        uint8_t *place = &window.ring[at % BYTES];
        window.counts[*place]--;
        *place = run[at];
        if (++window.counts[run[at]] > MOST) return at - BYTES + 1;
    }
    return UINT64_MAX;
}
