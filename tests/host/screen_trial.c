// One comparison of the exported screen with the reference.
#include "screen_trial.h"

#include "screen_reference.h"

#include <stdio.h>

void expect(const uint8_t *run, size_t length, uint64_t start, const char *what) {
    uint64_t got = cippazhey_screen(run, length), reference = reference_screen(run, length);
    bool good = got == start && reference == start;
    if (!good) {
        printf("got %llx and not %llx, the reference %llx, of %lu bytes\n", (unsigned long long)got, (unsigned long long)start,
               (unsigned long long)reference, (unsigned long)length);
    }
    record(good, what);
}
