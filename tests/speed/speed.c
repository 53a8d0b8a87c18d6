// Runs one kind of call many times, for callgrind to count, or times all kinds beside each other.
// speed KIND METHOD WIDTH BITS TIMES   KIND: one of kinds; WIDTH: n and m; BITS: the table has the values below 2^BITS, and is balanced if
//                                      that is WIDTH
// speed time                           a table of nanoseconds a call, at n = m = 8
#include "baseline.h"
#include "stopwatch.h"
#include <cippazhey.h>
#include <stdio.h>
#include <stdlib.h>
#include <string.h>

uint32_t cippazhey_logged_call(uint32_t method, uint32_t n, uint32_t m, uint32_t x0, uint32_t r1, uint32_t r2, uint32_t s1,
                               uint32_t s2, uint32_t r3, uint32_t b, const uint8_t *table, size_t table_length,
                               uint8_t *scratch, size_t scratch_length, uint32_t *log, size_t log_length);

// What is timed: each round makes so many calls of each kind under each method.
enum { METHODS = 3, TIMED = 5, ROUNDS = 200, CALLS = 1000 };

static const uint32_t methods[METHODS] = {2, 3, 5};
static uint8_t table[256], scratch[512];
static uint32_t log_entries[2400];
static volatile unsigned sink;

struct numbers {
    uint32_t method, n, m, x0, r1, r2, s1, s2, r3, b;
};

#define CALL(name) name(c->method, c->n, c->m, c->x0, c->r1, c->r2, c->s1, c->s2, c->r3, c->b, table, length, scratch, 512)
#define LOGGED(name) \
    name(c->method, c->n, c->m, c->x0, c->r1, c->r2, c->s1, c->s2, c->r3, c->b, table, length, scratch, 512, log_entries, 2400)

// The kinds of call. A call of nothing takes the same arguments, so that what is counted of it is the harness.
#define KIND(name, made) \
    static unsigned name(const struct numbers *c, size_t length) { return made; }
KIND(plain, CALL(cippazhey_plain_call))
KIND(logged, LOGGED(cippazhey_logged_call))
KIND(baseline_plain, CALL(baseline_plain_call))
KIND(guarded_plain, CALL(guarded_plain_call))
KIND(baseline_logged, LOGGED(baseline_logged_call))
KIND(baseline_bare, CALL(baseline_bare_call))
KIND(guarded_bare, CALL(guarded_bare_call))
KIND(nothing_plain, CALL(nothing_plain_call))
KIND(nothing_logged, LOGGED(nothing_logged_call))

// Those that are timed come first.
static const struct kind {
    const char *name;
    unsigned (*call)(const struct numbers *, size_t length);
} kinds[] = {
    {"plain", plain},
    {"logged", logged},
    {"baseline_plain", baseline_plain},
    {"guarded_plain", guarded_plain},
    {"baseline_logged", baseline_logged},
    {"baseline_bare", baseline_bare},
    {"guarded_bare", guarded_bare},
    {"nothing_plain", nothing_plain},
    {"nothing_bare", nothing_plain},
    {"nothing_logged", nothing_logged},
    {NULL, NULL},
};

static void run(const struct kind *kind, uint32_t method, uint32_t n, uint32_t bits, long times) {
    uint32_t last = (1u << n) - 1, greatest = (1u << bits) - 1;
    struct numbers c = {method, n, n, 90 & last, 60 & last, 7 & last, 33 & last, 18 & last, method == 5 ? 0 : 201 & last, method == 3};
    for (unsigned i = 0; i <= last; i++) table[i] = (uint8_t)((i * 5 + 3) & greatest);
    for (long i = 0; i < times; i++) {
        memset(scratch, 0, sizeof scratch); // in the harness, so that it is counted with no call
        unsigned result = kind->call(&c, (size_t)1 << n);
        if (result >= 256) exit(3);
        sink = result;
        c.x0 = (c.x0 + 1) & last;
    }
}

static double nanoseconds(const struct kind *kind, uint32_t method) {
    double from = nanoseconds_now();
    run(kind, method, 8, 8, CALLS);
    return (nanoseconds_now() - from) / CALLS;
}

// The best time of each kind under each method. Every round times all of them, so that other work on the machine slows none alone.
static void print_times(void) {
    double best[METHODS * TIMED];
    for (int each = 0; each < METHODS * TIMED; each++) best[each] = 1e18;
    for (int round = 0; round < ROUNDS; round++) {
        for (int each = 0; each < METHODS * TIMED; each++) {
            double time = nanoseconds(&kinds[each / METHODS], methods[each % METHODS]);
            if (time < best[each]) best[each] = time;
        }
    }
    for (int each = 0; each < METHODS * TIMED; each++)
        printf("%s %u %.0f\n", kinds[each / METHODS].name, (unsigned)methods[each % METHODS], best[each]);
}

// The calls' stack begins at a page, whatever the environment holds: memset of the C library chooses its path by alignment.
int main(int count, char **words) {
    volatile char page __attribute__((aligned(4096))) = 0;
    (void)page;
    if (count != 6) {
        print_times();
        return 0;
    }
    for (const struct kind *kind = kinds; kind->name != NULL; kind++) {
        if (!strcmp(words[1], kind->name)) {
            run(kind, (uint32_t)atoi(words[2]), (uint32_t)atoi(words[3]), (uint32_t)atoi(words[4]), atol(words[5]));
            return 0;
        }
    }
    return 1;
}
