// The screen in plain C, written from the requirements alone. It is made to be read, not to be fast: each window is counted anew.
#include "screen_reference.h"

#include <stdbool.h>

enum { WINDOW = 512, VALUES = 256, MOST = 20 };

static bool faulty(const uint8_t *window, size_t length) {
    size_t counts[VALUES] = {0};
    for (size_t place = 0; place < length; place++) {
        counts[window[place]]++;
    }
    for (int value = 0; value < VALUES; value++) {
        if (counts[value] > MOST) {
            return true;
        }
    }
    return false;
}

uint64_t reference_screen(const uint8_t *run, size_t length) {
    if (length < WINDOW) {
        return faulty(run, length) ? 0 : UINT64_MAX;
    }
    for (size_t start = 0; start + WINDOW <= length; start++) {
        if (faulty(run + start, WINDOW)) {
            return start;
        }
    }
    return UINT64_MAX;
}
