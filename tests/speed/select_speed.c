// Compares the selection in C with the proved one, then makes one kind of call many times, for callgrind to count, or times all kinds beside
// each other. The status is 1 where they differ.
// select_speed KIND WIDTH TIMES   KIND: one of kinds
// select_speed time               a table of nanoseconds a call, at width 8
#include "baseline.h"
#include "stopwatch.h"
#include <cippazhey.h>
#include <stdio.h>
#include <stdlib.h>
#include <string.h>

// How many selections are compared, and what is timed: each round makes so many calls of each kind.
enum { TIMED = 3, COMPARED = 2000, ROUNDS = 200, CALLS = 5000 };

struct selection {
    uint32_t width, z0, z1, z2, c0, c1, c2, t1, t2, b;
    uint8_t share[3];
};

#define CALL(name) \
    name(s->width, s->z0, s->z1, s->z2, s->c0, s->c1, s->c2, s->t1, s->t2, s->b, &s->share[0], &s->share[1], &s->share[2])

// The kinds of call. A call of nothing takes the same arguments, so that what is counted of it is the harness.
#define KIND(name, made) \
    static uint32_t name(struct selection *s) { return made; }
KIND(proved, CALL(cippazhey_select))
KIND(guarded, CALL(guarded_select))
KIND(baseline, CALL(baseline_select))
KIND(nothing, CALL(nothing_select))

// Those that are timed come first.
static const struct kind {
    const char *name;
    uint32_t (*call)(struct selection *);
} kinds[] = {
    {"select", proved}, {"guarded_select", guarded}, {"baseline_select", baseline}, {"nothing_select", nothing}, {NULL, NULL},
};

// Numbers of their widths; one in four is then made too large, or the width is.
static struct selection drawn(uint32_t width, int refused) {
    uint32_t word = (1u << 2 * width) - 1, half = (1u << width) - 1, *number;
    struct selection s = {width, (uint32_t)rand() & word, (uint32_t)rand() & word, (uint32_t)rand() & word, rand() & 1, rand() & 1, rand() & 1,
                          (uint32_t)rand() & half, (uint32_t)rand() & half, rand() & 1, {7, 7, 7}};
    number = &s.width + rand() % 10;
    if (refused) *number += number == &s.width ? 8 : 1u << 2 * width;
    return s;
}

// Whether all kinds leave the same shares and return the same refusal.
static int agree(void) {
    for (int i = 0; i < COMPARED; i++) {
        struct selection one = drawn((uint32_t)(1 + i % 8), i / 8 % 4 == 0), other = one, third = one;
        uint32_t refusal = proved(&one);
        if (guarded(&other) != refusal || baseline(&third) != refusal) return 0;
        if (memcmp(&one, &other, sizeof one) || memcmp(&one, &third, sizeof one)) return 0;
    }
    return 1;
}

static void run(const struct kind *kind, struct selection *s, long times) {
    for (long i = 0; i < times; i++) {
        if (kind->call(s)) exit(3);
        s->t1 ^= 1;
    }
}

// The best time of each kind. Every round times all, so that other work on the machine slows none alone.
static void print_times(struct selection *s) {
    double best[TIMED];
    for (int kind = 0; kind < TIMED; kind++) best[kind] = 1e18;
    for (int round = 0; round < ROUNDS; round++) {
        for (int kind = 0; kind < TIMED; kind++) {
            double from = nanoseconds_now();
            run(&kinds[kind], s, CALLS);
            double time = (nanoseconds_now() - from) / CALLS;
            if (time < best[kind]) best[kind] = time;
        }
    }
    for (int kind = 0; kind < TIMED; kind++) printf("%s %.1f\n", kinds[kind].name, best[kind]);
}

int main(int count, char **words) {
    struct selection s = drawn(count == 4 ? (uint32_t)atoi(words[2]) : 8, 0);
    // where calls are counted, refused ones would be counted too
    if (count != 4 && !agree()) {
        fprintf(stderr, "the selection in C and the proved one differ\n");
        return 1;
    }
    if (count != 4) {
        print_times(&s);
        return 0;
    }
    for (const struct kind *kind = kinds; kind->name != NULL; kind++) {
        if (!strcmp(words[1], kind->name)) {
            run(kind, &s, atol(words[3]));
            return 0;
        }
    }
    return 1;
}
