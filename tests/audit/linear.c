// The linear comparison of all pairs of probes.
#include "probes.h"

#include <stdio.h>
#include <stdlib.h>
#include <string.h>

// Two probes' exclusive or is the same for all choices of an input just if both move alike from the input's first choice to
// each other. `moves` has a number for each call; those of each input's first choice are 0.
struct moving {
    const struct probe *probe; // none for the constant 0
    uint64_t *moves;
};

static size_t calls_of_all; // for the comparison below

static int by_moves(const void *one, const void *other) {
    const struct moving *left = one, *right = other;
    return memcmp(left->moves, right->moves, calls_of_all * sizeof *left->moves);
}

static struct moving moving_of(const struct probe *probe, size_t calls, size_t each) {
    struct moving moving = {probe, room(calls, sizeof(uint64_t))};
    for (size_t call = 0; probe && call < calls; call++) moving.moves[call] = value_in(probe, call) ^ value_in(probe, call / each * each);
    return moving;
}

// Whether the two, which move alike, differ by another amount for one input than for the first.
static bool differ(const struct moving *one, const struct moving *other, size_t inputs, size_t each) {
    uint64_t at_first = 0;
    for (size_t input = 0; input < inputs; input++) {
        uint64_t left = one->probe ? value_in(one->probe, input * each) : 0, right = other->probe ? value_in(other->probe, input * each) : 0;
        if (input == 0) at_first = left ^ right;
        if ((left ^ right) != at_first) return true;
    }
    return false;
}

// Those that move alike stand beside each other once sorted. If none of them differs from its neighbour, no two differ.
size_t leaking_sums(const struct probes *probes, size_t inputs) {
    size_t count = probes->count + 1, each = probes->calls / inputs, found = 0;
    struct moving *all = room(count, sizeof *all);
    for (size_t i = 0; i < count; i++) all[i] = moving_of(i < probes->count ? &probes->list[i] : NULL, probes->calls, each);
    calls_of_all = probes->calls;
    qsort(all, count, sizeof *all, by_moves);
    for (size_t i = 1; i < count; i++)
        if (!by_moves(&all[i - 1], &all[i]) && differ(&all[i - 1], &all[i], inputs, each)) {
            const struct probe *one = all[i - 1].probe, *other = all[i].probe;
            if (found++ < SHOWN) print_leak(probes, one ? one : other, one ? other : NULL);
        }
    printf("    leaking, alone or by twos: %lu\n", (unsigned long)found);
    for (size_t i = 0; i < count; i++) free(all[i].moves);
    free(all);
    return found;
}
