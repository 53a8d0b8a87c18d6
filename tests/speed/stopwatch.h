// The time, for the programs that measure.
#ifndef STOPWATCH_H
#define STOPWATCH_H

#include <time.h>

static inline double nanoseconds_now(void) {
    struct timespec now;
    clock_gettime(CLOCK_MONOTONIC, &now);
    return (double)now.tv_sec * 1e9 + (double)now.tv_nsec;
}

#endif
