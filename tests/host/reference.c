// The plain call in plain C, written from the requirements alone, without looking at the code. It is made to be read, not to be fast or to
// hide anything.
#include "reference.h"

#include <stdbool.h>

// The values that occur in a table, each once, and how often every value does.
struct occurring {
    uint8_t value[256];
    size_t values, times[256];
};

static struct occurring occurring_in(const uint8_t *table, size_t entries) {
    struct occurring found = {{0}, 0, {0}};
    for (size_t place = 0; place < entries; place++) {
        if (found.times[table[place]] == 0) {
            found.value[found.values++] = table[place];
        }
        found.times[table[place]]++;
    }
    return found;
}

// Whether all values that occur do so equally often.
static bool equally_often(const struct occurring *found) {
    for (size_t each = 0; each < found->values; each++) {
        if (found->times[found->value[each]] != found->times[found->value[0]]) {
            return false;
        }
    }
    return true;
}

// Whether the exclusive or of any three values that occur, repeats allowed, occurs as well. Pairs with the same exclusive or are one.
static bool closed(const struct occurring *found) {
    bool of_two[256] = {false};
    for (size_t one = 0; one < found->values; one++) {
        for (size_t two = 0; two < found->values; two++) {
            of_two[found->value[one] ^ found->value[two]] = true;
        }
    }
    for (size_t pair = 0; pair < 256; pair++) {
        for (size_t three = 0; of_two[pair] && three < found->values; three++) {
            if (found->times[pair ^ found->value[three]] == 0) {
                return false;
            }
        }
    }
    return true;
}

static bool fit(const uint8_t *table, size_t entries) {
    struct occurring found = occurring_in(table, entries);
    return equally_often(&found) && closed(&found);
}

static unsigned table_refusal(struct lookup call) {
    if (call.method != 2 && call.method != 3 && call.method != 5) {
        return 2;
    }
    if (call.n < 1 || call.n > 8) {
        return 3;
    }
    if (call.m < 1 || call.m > 8) {
        return 4;
    }
    size_t entries = (size_t)1 << call.n;
    size_t values = (size_t)1 << call.m;
    if (call.table_length != entries) {
        return 5;
    }
    for (size_t place = 0; place < entries; place++) {
        if (call.table[place] >= values) {
            return 6;
        }
    }
    if (!fit(call.table, entries)) {
        return 7;
    }
    return 0;
}

// Asked only once the widths are known to be from 1 to 8.
static unsigned mask_refusal(struct lookup call) {
    uint32_t entries = (uint32_t)1 << call.n;
    uint32_t values = (uint32_t)1 << call.m;
    if (call.x0 >= entries || call.r1 >= entries || call.r2 >= entries || call.r3 >= entries) {
        return 10;
    }
    if (call.s1 >= values || call.s2 >= values) {
        return 11;
    }
    if (call.method == 2 && call.b > 0) {
        return 12;
    }
    if (call.method == 3 && call.b > 1) {
        return 12;
    }
    if (call.method == 5 && (call.r3 > 0 || call.b > 0)) {
        return 12;
    }
    return 0;
}

// Whether the first bytes of scratch, so many, are zero.
static bool clean(const uint8_t *scratch, size_t bytes) {
    for (size_t place = 0; place < bytes; place++) {
        if (scratch[place] != 0) {
            return false;
        }
    }
    return true;
}

// How many bytes of scratch the method needs: a byte for each entry, under method 5 two.
static size_t needed(struct lookup call) {
    size_t entries = (size_t)1 << call.n;
    return call.method == 5 ? 2 * entries : entries;
}

// Asked only once n is known to be from 1 to 8.
static unsigned scratch_refusal(struct lookup call, const uint8_t *scratch, size_t scratch_length) {
    if (scratch_length < needed(call)) {
        return 13;
    }
    if (!clean(scratch, needed(call))) {
        return 19;
    }
    return 0;
}

static unsigned refusal(struct lookup call, const uint8_t *scratch, size_t scratch_length) {
    unsigned number = table_refusal(call);
    if (number != 0) {
        return number;
    }
    number = mask_refusal(call);
    if (number != 0) {
        return number;
    }
    return scratch_refusal(call, scratch, scratch_length);
}

static uint8_t masked_entry(struct lookup call, uint32_t place) {
    return (uint8_t)((call.table[place] ^ call.s1) ^ call.s2);
}

static uint8_t method_2(struct lookup call, uint8_t *scratch) {
    uint32_t r_prime = (call.r1 ^ call.r3) ^ call.r2;
    for (uint32_t a = 0; a < (uint32_t)1 << call.n; a++) {
        scratch[a ^ r_prime] = masked_entry(call, call.x0 ^ a);
    }
    return scratch[call.r3];
}

static uint8_t method_3(struct lookup call, uint8_t *scratch) {
    uint32_t entries = (uint32_t)1 << call.n;
    uint8_t registers[2] = {0, 0};
    for (uint32_t place = 0; place < entries; place++) {
        scratch[place] = (uint8_t)(1 - call.b);
    }
    scratch[call.r3] = (uint8_t)call.b;
    for (uint32_t a = 0; a < entries; a++) {
        uint8_t compared = scratch[((call.r1 ^ a) ^ call.r3) ^ call.r2];
        registers[compared] = masked_entry(call, call.x0 ^ a);
    }
    return registers[call.b];
}

static uint8_t method_5(struct lookup call, uint8_t *scratch) {
    uint32_t entries = (uint32_t)1 << call.n;
    uint8_t *first = scratch, *second = scratch + entries;
    for (uint32_t a = 0; a < entries; a++) {
        first[a] = (uint8_t)(call.table[a ^ call.r1] ^ call.s1);
    }
    for (uint32_t a = 0; a < entries; a++) {
        second[a] = (uint8_t)(first[a ^ call.r2] ^ call.s2);
    }
    return second[call.x0];
}

static uint8_t looked_up(struct lookup call, uint8_t *scratch) {
    switch (call.method) {
    case 2: return method_2(call, scratch);
    case 3: return method_3(call, scratch);
    default: return method_5(call, scratch);
    }
}

uint16_t reference_plain_call(struct lookup call, uint8_t *scratch, size_t scratch_length) {
    unsigned number = refusal(call, scratch, scratch_length);
    if (number != 0) {
        return (uint16_t)(number * 256);
    }
    uint8_t share = looked_up(call, scratch);
    return share;
}
