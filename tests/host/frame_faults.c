// Frames whose random bytes are faulty, or nearly so: a group of frame_test.c.
#include "frame_faults.h"

#include "frame_trial.h"
#include "runs.h"
#include "screen_reference.h"

#include <string.h>

// A frame in whose random bytes a value stands so many times, from a first place to a last, and any other at most three times in a window.
static struct frame_trial frame_with(uint8_t value, size_t times, size_t first, size_t last) {
    struct frame_trial trial = accepted_frame();
    fill_without(trial.random, RANDOM_LENGTH, value);
    spread(trial.random, value, times, first, last);
    return trial;
}

static struct frame_trial frame_of_one_value(uint8_t value) {
    struct frame_trial trial = accepted_frame();
    memset(trial.random, value, sizeof trial.random);
    return trial;
}

static void expect_with(struct frame_trial trial, uint32_t refusal, const char *what) {
    expect_frame(&trial, refusal, what);
}

static void each_value(void) {
    for (int value = 0; value < 256; value++) {
        expect_with(frame_of_one_value((uint8_t)value), 27, "random bytes of one value");
        expect_with(frame_with((uint8_t)value, MOST, 60, 60 + WINDOW - 1), 0, "20 of a value");
        expect_with(frame_with((uint8_t)value, MOST + 1, 60, 60 + WINDOW - 1), 27, "21 of a value");
    }
}

// Of 632 bytes there are 121 windows.
static void each_window(void) {
    for (size_t start = 0; start + WINDOW <= RANDOM_LENGTH; start++) {
        size_t end = start + WINDOW - 1;
        uint8_t value = (uint8_t)below(256);
        expect_with(frame_with(value, MOST, start, end), 0, "20 of a value in a window");
        expect_with(frame_with(value, MOST + 1, start, end), 27, "21 of a value in a window");
        if (end + 1 < RANDOM_LENGTH) {
            expect_with(frame_with(value, MOST + 1, start, end + 1), 0, "21 of a value in no window");
        }
    }
}

// 26 comes before 27, and 27 before 13.
static void order(struct frame_trial trial) {
    const size_t lengths[][3] = {{632, 256, 27}, {632, 255, 27}, {632, 0, 27}, {631, 256, 26}, {633, 0, 26}, {0, 300, 26}};
    for (int each = 0; each < 6; each++) {
        trial.random_length = lengths[each][0];
        trial.scratch_length = lengths[each][1];
        expect_frame(&trial, (uint32_t)lengths[each][2], "several refusals at once");
    }
}

// A frame after one that is refused, and with what that one has left.
static void tried_again(void) {
    struct frame_trial trial = frame_of_one_value(0);
    expect_frame(&trial, 27, "a frame that is refused");
    fill_random(trial.random, RANDOM_LENGTH);
    expect_frame(&trial, 0, "the same with new random bytes");
    trial.scratch_length = SCRATCH_LENGTH - 1;
    expect_frame(&trial, 13, "the same on short scratch");
}

// A value that takes every tenth place is always noticed, one that takes every thirtieth sometimes.
static void biased_source(void) {
    unsigned strong = 0, weak = 0;
    for (int turn = 0; turn < 200; turn++) {
        struct frame_trial trial = accepted_frame();
        fill_biased(trial.random, RANDOM_LENGTH, (uint8_t)below(256), turn % 2 == 0 ? 102 : 34);
        bool faulty = reference_screen(trial.random, RANDOM_LENGTH) != UINT64_MAX;
        strong += faulty && turn % 2 == 0;
        weak += faulty && turn % 2 == 1;
        expect_frame(&trial, faulty ? 27 : 0, "a biased source");
    }
    record(strong == 100, "every frame of a strongly biased source is refused");
    record(weak > 10, "some frames of a weakly biased source are refused");
    record(weak < 90, "and some are not");
}

void faulty_random(void) {
    each_value();
    each_window();
    order(frame_of_one_value(0));
    order(frame_with(255, MOST + 1, 0, WINDOW - 1));
    order(frame_with(1, MOST + 1, RANDOM_LENGTH - WINDOW, RANDOM_LENGTH - 1));
    tried_again();
    biased_source();
}
