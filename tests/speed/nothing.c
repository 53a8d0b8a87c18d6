// Calls of nothing: what is counted of one is the harness, with the passing of the arguments.
#include "baseline.h"

#pragma GCC diagnostic ignored "-Wunused-parameter"

PLAIN_CALL(nothing_plain_call) {
    return 0;
}
LOGGED_CALL(nothing_logged_call) {
    return 0;
}
FRAME_CALL(nothing_frame) {
    return 0;
}
SELECT_CALL(nothing_select) {
    return 0;
}
uint64_t nothing_screen(const uint8_t *run, size_t length) {
    return UINT64_MAX;
}
