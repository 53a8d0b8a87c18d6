// From a trace to probes, a call at a time.
#include "probes.h"
#include "parts.h"

#include <stdio.h>
#include <stdlib.h>
#include <string.h>

void *room(size_t count, size_t size) {
    void *memory = calloc(count ? count : 1, size);
    if (!memory) abort();
    return memory;
}

static void *more_room(void *memory, size_t size) {
    memory = realloc(memory, size);
    if (!memory) abort();
    return memory;
}

struct probes start_probes(const struct trace *trace, size_t calls) {
    bool *known = room((trace->most_steps + 1) * PLACES, sizeof *known);
    return (struct probes){NULL, 0, 0, calls, 0, known, trace->addresses};
}

// The slot of a value, or the empty one where it would be.
static uint32_t *slot_of(const struct probe *probe, uint64_t value) {
    size_t slot = (value * 0x9e3779b97f4a7c15u >> 32) & (probe->slot_count - 1);
    while (probe->slots[slot] && probe->values[probe->slots[slot] - 1] != value) slot = (slot + 1) & (probe->slot_count - 1);
    return &probe->slots[slot];
}

static void widen(struct probe *probe) {
    enum { FEWEST = 16, MOST_CLASSES = 1 << 16 };
    if (2 * probe->count < probe->slot_count) return;
    if (probe->count >= MOST_CLASSES) abort();
    free(probe->slots);
    probe->slot_count = probe->slot_count ? 4 * probe->slot_count : FEWEST;
    probe->slots = room(probe->slot_count, sizeof *probe->slots);
    probe->values = more_room(probe->values, probe->slot_count * sizeof *probe->values);
    for (size_t class = 0; class < probe->count; class ++) *slot_of(probe, probe->values[class]) = (uint32_t)class + 1;
}

// The class of a value, a new one where no call before had it.
static size_t class_of(struct probe *probe, uint64_t value) {
    widen(probe);
    uint32_t *slot = slot_of(probe, value);
    if (!*slot) {
        probe->values[probe->count++] = value;
        *slot = (uint32_t)probe->count;
    }
    return *slot - 1;
}

static void set_value(struct probe *probe, size_t call, size_t calls, uint64_t value) {
    size_t class = probe->count == 1 && probe->values[0] == value ? 0 : class_of(probe, value);
    if (class && !probe->classes) probe->classes = room(calls, sizeof *probe->classes);
    if (probe->classes) probe->classes[call] = (uint16_t)class;
}

uint64_t value_in(const struct probe *probe, size_t call) {
    return probe->values[probe->classes ? probe->classes[call] : 0];
}

static bool is_before(const struct probe *probe, const struct change *change) {
    return probe->step < change->step || (probe->step == change->step && probe->place < change->place);
}

// A probe that no call before had: in those the place has the value that it had before.
static void add_probe(struct probes *probes, const struct change *change) {
    size_t at = probes->count;
    if (probes->count == probes->room) {
        probes->room = 2 * probes->room + 256;
        probes->list = more_room(probes->list, probes->room * sizeof *probes->list);
    }
    while (at > 0 && !is_before(&probes->list[at - 1], change)) at--;
    memmove(&probes->list[at + 1], &probes->list[at], (probes->count++ - at) * sizeof *probes->list);
    struct probe *probe = &probes->list[at], *earlier = probe;
    *probe = (struct probe){.step = change->step, .place = change->place};
    while (earlier > probes->list && (--earlier)->place != change->place) continue;
    bool found = earlier->place == change->place && earlier != probe;
    for (size_t call = 0; call < probes->taken; call++) set_value(probe, call, probes->calls, found ? value_in(earlier, call) : 0);
}

// One call's values. A place that this call leaves as it is at a step still has a value there.
static void read_call(struct probes *probes, const struct change *change, const struct change *end) {
    static uint64_t now[PLACES];
    memset(now, 0, sizeof now);
    for (size_t i = 0; i < probes->count; i++) {
        struct probe *probe = &probes->list[i];
        for (; change < end && change->step <= probe->step; change++) now[change->place] = change->value;
        set_value(probe, probes->taken, probes->calls, now[probe->place]);
    }
}

void take_call(struct probes *probes, struct trace *trace) {
    const struct change *end = trace->changes + trace->count;
    for (const struct change *change = trace->changes; change < end; change++) {
        bool *known = &probes->known[(size_t)change->step * PLACES + change->place];
        if (!*known) add_probe(probes, change);
        *known = true;
    }
    read_call(probes, trace->changes, end);
    probes->taken++;
    trace->count = 0;
}

static void drop_probe(struct probe *probe) {
    free(probe->classes);
    free(probe->values);
    free(probe->slots);
}

void keep_varying(struct probes *probes) {
    size_t kept = 0;
    for (size_t i = 0; i < probes->count; i++) {
        bool left_out = probes->list[i].step == 0 && !watches(ENTRY_PART);
        if (left_out || probes->list[i].count == 1)
            drop_probe(&probes->list[i]);
        else
            probes->list[kept++] = probes->list[i];
    }
    probes->count = kept;
}

void drop_probes(struct probes *probes) {
    for (size_t i = 0; i < probes->count; i++) drop_probe(&probes->list[i]);
    free(probes->list);
    free(probes->known);
}

static void print_probe(const struct probes *probes, const struct probe *probe) {
    char name[NAME_LENGTH];
    name_place(probe->place, name);
    if (probe->step == 0)
        printf("%s at entry", name);
    else
        printf("%s at %#lx (step %u)", name, (unsigned long)probes->addresses[probe->step - 1], probe->step);
}

void print_leak(const struct probes *probes, const struct probe *one, const struct probe *other) {
    printf("    leak: ");
    print_probe(probes, one);
    if (other) {
        printf(" with ");
        print_probe(probes, other);
    }
    printf("\n");
}

size_t dependent_probes(const struct probes *probes, size_t inputs) {
    (void)inputs;
    for (size_t i = 0; i < probes->count && i < SHOWN; i++) print_leak(probes, &probes->list[i], NULL);
    return probes->count;
}
