// The exact comparison of all pairs of probes.
#include "parts.h"
#include "probes.h"

#include <stdio.h>
#include <stdlib.h>
#include <string.h>

// Probes of which no two tell calls apart in the same way.
struct views {
    const struct probe **list;
    size_t count;
};

static bool seen(const struct views *views, const struct probe *probe, size_t calls) {
    for (size_t i = 0; i < views->count; i++)
        if (views->list[i]->count == probe->count && !memcmp(views->list[i]->classes, probe->classes, calls * sizeof *probe->classes))
            return true;
    return false;
}

static struct views distinct_views(const struct probes *probes) {
    struct views views = {room(probes->count + 1, sizeof *views.list), 0};
    for (size_t i = 0; i < probes->count; i++)
        if (!seen(&views, &probes->list[i], probes->calls)) views.list[views.count++] = &probes->list[i];
    return views;
}

// How often each pair of classes is shown by the calls of one input.
static void tally(uint32_t *counts, const struct probe *one, const struct probe *other, size_t from, size_t each) {
    memset(counts, 0, one->count * other->count * sizeof *counts);
    for (size_t call = from; call < from + each; call++) counts[one->classes[call] * other->count + other->classes[call]]++;
}

static bool leaks(uint32_t *first, uint32_t *counts, const struct probe *one, const struct probe *other, size_t inputs, size_t each) {
    bool differs = false;
    tally(first, one, other, 0, each);
    for (size_t input = 1; input < inputs && !differs; input++) {
        tally(counts, one, other, input * each, each);
        differs = memcmp(first, counts, one->count * other->count * sizeof *counts);
    }
    return differs;
}

size_t leaking_pairs(const struct probes *probes, size_t inputs) {
    struct views views = distinct_views(probes);
    size_t each = probes->calls / inputs, compared = watches(INPUTS_PART) ? inputs : 2, widest = 1, found = 0;
    for (size_t i = 0; i < views.count; i++)
        if (views.list[i]->count > widest) widest = views.list[i]->count;
    uint32_t *first = room(widest * widest, sizeof *first), *counts = room(widest * widest, sizeof *counts);
    for (size_t i = 0; i < views.count; i++)
        for (size_t j = i; j < views.count; j++) {
            if (!leaks(first, counts, views.list[i], views.list[j], compared, each)) continue;
            if (found++ < SHOWN) print_leak(probes, views.list[i], views.list[j]);
        }
    printf("    %lu of the probes tell calls apart in different ways; leaking pairs: %lu\n", (unsigned long)views.count, (unsigned long)found);
    free(views.list);
    free(first);
    free(counts);
    return found;
}
