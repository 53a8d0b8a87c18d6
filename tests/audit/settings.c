// The comparison of pairs of bits by the settings of some masks that are single bits.
#include "probes.h"

#include <stdio.h>
#include <stdlib.h>
#include <string.h>

enum { CHOICES = 64, PAIRS = 4 };

// One bit of a probe over all calls: 64 choices are a word. It is turned over where that of the first call is 1, which tells as much.
struct column {
    const struct probe *probe;
    uint64_t *words;
};

static size_t words_of_all; // for the comparison below

static int by_words(const void *one, const void *other) {
    const struct column *left = one, *right = other;
    return memcmp(left->words, right->words, words_of_all * sizeof *left->words);
}

static struct column column_of(const struct probe *probe, int bit) {
    struct column column = {probe, room(words_of_all, sizeof(uint64_t))};
    uint64_t first = value_in(probe, 0) >> bit & 1;
    for (size_t call = 0; call < words_of_all * CHOICES; call++)
        column.words[call / CHOICES] |= ((value_in(probe, call) >> bit & 1) ^ first) << call % CHOICES;
    return column;
}

// Whether in each setting it is an exclusive or of masks: then it is even in each four choices of which one is the other three's sum.
static bool affine(const struct column *column) {
    for (size_t i = 0; i < words_of_all; i++) {
        uint64_t twos = column->words[i] ^ column->words[i] >> 1, fours = twos ^ twos >> 2;
        if (fours & 0x1111111111111111u) return false;
    }
    return true;
}

// Whether it is the value in some choice.
static unsigned takes(uint64_t word, unsigned value) {
    return word != (value ? 0 : UINT64_MAX);
}

// How many quarters of an input's choices show each pair of values of two columns. In a setting those that occur do so equally often: a pair
// occurs if each column takes its value, and their exclusive or does.
static void tally(unsigned counts[PAIRS], const uint64_t *one, const uint64_t *other, size_t settings) {
    memset(counts, 0, PAIRS * sizeof *counts);
    for (size_t i = 0; i < settings; i++) {
        unsigned occurs[PAIRS], sum = 0;
        for (unsigned pair = 0; pair < PAIRS; pair++) {
            unsigned left = pair / 2, right = pair % 2;
            sum += occurs[pair] = takes(one[i], left) & takes(other[i], right) & takes(one[i] ^ other[i], left ^ right);
        }
        for (unsigned pair = 0; pair < PAIRS; pair++) counts[pair] += occurs[pair] * PAIRS / sum;
    }
}

static bool leaks(const struct column *one, const struct column *other, size_t inputs, size_t settings) {
    unsigned first[PAIRS], counts[PAIRS];
    tally(first, one->words, other->words, settings);
    for (size_t at = settings; at < inputs * settings; at += settings) {
        tally(counts, one->words + at, other->words + at, settings);
        if (memcmp(first, counts, sizeof first)) return true;
    }
    return false;
}

// The affine columns of all probes, each once. Counts the others, of which each is another bit.
static struct column *distinct_columns(const struct probes *probes, size_t *count, size_t *others) {
    struct column *all = room(probes->count * 8 + 1, sizeof *all);
    size_t made = 0;
    for (size_t i = 0; i < probes->count * 8; i++) {
        all[made] = column_of(&probes->list[i / 8], (int)(i % 8));
        if (affine(&all[made]))
            made++;
        else
            free(all[made].words), ++*others;
    }
    qsort(all, made, sizeof *all, by_words);
    for (size_t i = 0; i < made; i++) {
        if (*count && !by_words(&all[*count - 1], &all[i]))
            free(all[i].words);
        else
            all[(*count)++] = all[i];
    }
    return all;
}

size_t leaking_settings(const struct probes *probes, size_t inputs, size_t settings) {
    size_t count = 0, others = 0, found = 0;
    words_of_all = inputs * settings;
    if (probes->calls != words_of_all * CHOICES) abort();
    struct column *all = distinct_columns(probes, &count, &others);
    for (size_t i = 0; i < count; i++)
        for (size_t j = i; j < count; j++)
            if (leaks(&all[i], &all[j], inputs, settings) && found++ < SHOWN) print_leak(probes, all[i].probe, all[j].probe);
    printf("    %lu bits are sums of masks in different ways, %lu bits are no such sum; leaking pairs: %lu\n", (unsigned long)count,
           (unsigned long)others, (unsigned long)found);
    for (size_t i = 0; i < count; i++) free(all[i].words);
    free(all);
    return found;
}
