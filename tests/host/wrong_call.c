// The exported call over an edited copy of the reference, to try plain_call_test.c on: tests/host/wrong_calls.py has the edits. The test
// clears scratch too, and for that this clears rightly.
#include "cippazhey.h"
#include "reference.h"

uint16_t cippazhey_plain_call(uint32_t method, uint32_t n, uint32_t m, uint32_t x0, uint32_t r1, uint32_t r2, uint32_t s1,
                              uint32_t s2, uint32_t r3, uint32_t b, const uint8_t *table, size_t table_length,
                              uint8_t *scratch, size_t scratch_length) {
    struct lookup call = {method, n, m, x0, r1, r2, s1, s2, r3, b, table, table_length};
    return reference_plain_call(call, scratch, scratch_length);
}

void cippazhey_clear(uint8_t *buffer, size_t length) {
    for (size_t place = 0; place < length; place++) {
        buffer[place] = 0;
    }
}
