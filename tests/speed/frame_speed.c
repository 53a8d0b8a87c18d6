// Compares the frame and the screening in C with the proved ones, then makes one kind of call many times, for callgrind to count, or times
// all kinds beside each other. The status is 1 where they differ.
// frame_speed KIND TIMES   KIND: one of kinds
// frame_speed time         a table of nanoseconds a call
#include "baseline.h"
#include "stopwatch.h"
#include <cippazhey.h>
#include <stdio.h>
#include <stdlib.h>
#include <string.h>

// How many frames are compared, and what is timed: each round makes so many calls of each kind.
enum { TIMED = 4, COMPARED = 5, ROUNDS = 200, CALLS = 20 };

struct frame {
    uint8_t plaintext[16], key[3][16], random[632], scratch[256], share[3][16];
};

#define ENCRYPT(name)                                                                                                            \
    name(f->plaintext, f->key[0], f->key[1], f->key[2], f->random, sizeof f->random, f->scratch, sizeof f->scratch, f->share[0], \
         f->share[1], f->share[2])

#define SCREENED(name) (name(f->random, sizeof f->random) != CIPPAZHEY_NO_FAULT)

// The kinds of call: the refusal of a frame, or whether its random bytes are faulty. A call of nothing takes the same arguments, so that
// what is counted of it is the harness.
#define KIND(name, made) \
    static uint32_t name(struct frame *f) { return made; }
KIND(frame, ENCRYPT(cippazhey_encrypt_frame))
KIND(guarded, ENCRYPT(guarded_frame))
KIND(screen, SCREENED(cippazhey_screen))
KIND(screen_in_c, SCREENED(baseline_screen))
KIND(no_frame, ENCRYPT(nothing_frame))
KIND(no_screen, SCREENED(nothing_screen))

// Those that are timed come first.
static const struct kind {
    const char *name;
    uint32_t (*call)(struct frame *);
} kinds[] = {
    {"frame", frame},
    {"guarded_frame", guarded},
    {"screen", screen},
    {"baseline_screen", screen_in_c},
    {"nothing_frame", no_frame},
    {"nothing_screen", no_screen},
    {NULL, NULL},
};

// A frame whose every byte is drawn, those of scratch and of the shares too.
static void draw(struct frame *f) {
    uint8_t *bytes = (uint8_t *)f;
    for (size_t i = 0; i < sizeof *f; i++) bytes[i] = (uint8_t)rand();
}

// Whether both kinds leave the same shares and the same scratch.
static int agree(void) {
    static struct frame one, other;
    for (int i = 0; i < COMPARED; i++) {
        draw(&one);
        other = one;
        if (frame(&one) || guarded(&other) || memcmp(&one, &other, sizeof one)) return 0;
    }
    return 1;
}

// Whether both screens find the same start, and both frames are refused: 21 of a value behind each other, in each place.
static int agree_on_faults(void) {
    static struct frame f, drawn;
    draw(&drawn);
    for (size_t at = 0; at + 21 <= sizeof f.random; at++) {
        f = drawn;
        memset(f.random + at, 7, 21);
        uint64_t start = cippazhey_screen(f.random, sizeof f.random);
        if (start == CIPPAZHEY_NO_FAULT || start != baseline_screen(f.random, sizeof f.random)) return 0;
        if (frame(&f) != CIPPAZHEY_REFUSED_FAULTY_RANDOM || guarded(&f) != CIPPAZHEY_REFUSED_FAULTY_RANDOM) return 0;
    }
    return !screen(&drawn) && !screen_in_c(&drawn);
}

static void run(const struct kind *kind, struct frame *f, long times) {
    for (long i = 0; i < times; i++) {
        if (kind->call(f)) exit(3);
        f->plaintext[0]++;
    }
}

// The best time of each kind. Every round times all, so that other work on the machine slows none alone.
static void print_times(struct frame *f) {
    double best[TIMED];
    for (int kind = 0; kind < TIMED; kind++) best[kind] = 1e18;
    for (int round = 0; round < ROUNDS; round++) {
        for (int kind = 0; kind < TIMED; kind++) {
            double from = nanoseconds_now();
            run(&kinds[kind], f, CALLS);
            double time = (nanoseconds_now() - from) / CALLS;
            if (time < best[kind]) best[kind] = time;
        }
    }
    for (int kind = 0; kind < TIMED; kind++) printf("%s %.0f\n", kinds[kind].name, best[kind]);
}

// The calls' stack begins at a page, as in speed.c.
int main(int count, char **words) {
    volatile char page __attribute__((aligned(4096))) = 0;
    (void)page;
    static struct frame f;
    int counted = count == 3;
    // where calls are counted, refused ones would be counted too
    if (!agree() || (!counted && !agree_on_faults())) {
        fprintf(stderr, "the frame or the screening in C and the proved one differ\n");
        return 1;
    }
    draw(&f);
    if (!counted) {
        print_times(&f);
        return 0;
    }
    for (const struct kind *kind = kinds; kind->name != NULL; kind++) {
        if (!strcmp(words[1], kind->name)) {
            run(kind, &f, atol(words[2]));
            return 0;
        }
    }
    return 1;
}
