// Runs of bytes to screen, of which it is known how often a value stands where.
#include "runs.h"

#include "numbers.h"

void fill_without(uint8_t *run, size_t length, uint8_t value) {
    for (size_t place = 0; place < length; place++) {
        run[place] = (uint8_t)(value + 2 + place % 254);
    }
}

void spread(uint8_t *run, uint8_t value, size_t times, size_t first, size_t last) {
    for (size_t each = 0; each < times; each++) {
        run[first + each * (last - first) / (times - 1)] = value;
    }
}

void fill_biased(uint8_t *run, size_t length, uint8_t value, uint32_t times) {
    for (size_t place = 0; place < length; place++) {
        run[place] = below(1024) < times ? value : (uint8_t)below(256);
    }
}
