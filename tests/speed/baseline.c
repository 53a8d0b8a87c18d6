// The calls in C, as a careful engineer would write them without proofs: see baseline.h. Compiled twice, the second time with -DGUARDED.
#include "baseline.h"
#include "barrier.h"
#include <string.h>

#ifdef GUARDED
#define NAME(name) guarded_##name
#else
#define NAME(name) baseline_##name
#endif

static int balanced(const uint16_t *counts, uint32_t n, uint32_t m) {
    unsigned differing = 0;
    if (m > n) return 0;
    for (size_t v = 0; v < (size_t)1 << m; v++) differing |= counts[v] ^ (1u << (n - m));
    return !differing;
}

static int is_period(const uint16_t *counts, size_t difference, size_t values) {
    for (size_t v = 0; v < values; v++)
        if (counts[v ^ difference] != counts[v]) return 0;
    return 1;
}

// The same check as the library's: for each highest bit one difference of the first entry and another must be a period of the counts.
static int periodic(const uint16_t *counts, size_t first, size_t values) {
    for (size_t low = 1; low < values; low *= 2) {
        size_t difference = low;
        while (difference < 2 * low && !counts[first ^ difference]) difference++;
        if (difference < 2 * low && !is_period(counts, difference, values)) return 0;
    }
    return 1;
}

static unsigned table_refusal(uint32_t n, uint32_t m, const uint8_t *table, size_t length) {
    uint16_t counts[256];
    unsigned joined = 0;
    if (n < 1 || n > 8) return 3;
    if (m < 1 || m > 8) return 4;
    if (length != (size_t)1 << n) return 5;
    memset(counts, 0, sizeof counts);
    for (size_t i = 0; i < length; i++) {
        counts[table[i]]++;
        joined |= table[i];
    }
    if (joined >= 1u << m) return 6;
    return balanced(counts, n, m) || periodic(counts, table[0], (size_t)1 << m) ? 0 : 7;
}

// A comparison that is not merged with another: the greater of two shares is a number of both.
static inline unsigned from(uint32_t limit, uint32_t value) {
    unsigned at_least = value >= limit;
    BARRIER(at_least);
    return at_least;
}

// The same check as the library's: no two bytes are joined, and none ends the loop.
static unsigned dirty(const uint8_t *scratch, size_t length) {
    uint8_t cells[2] = {0, 0};
    for (size_t i = 0; i < length; i++) {
        size_t cell = (scratch[i] + 255u) / 256;
        BARRIER(cell);
        cells[cell] = 1;
    }
    return cells[1];
}

static unsigned mask_refusal(uint32_t method, uint32_t inputs, uint32_t outputs, uint32_t x0, uint32_t r1, uint32_t r2, uint32_t s1,
                             uint32_t s2, uint32_t r3, uint32_t b, const uint8_t *scratch, size_t scratch_length) {
    if (from(inputs, x0) || from(inputs, r1) || from(inputs, r2) || from(inputs, r3)) return 10;
    if (from(outputs, s1) || from(outputs, s2)) return 11;
    if (b > (method == 3) || (method == 5 && r3 > 0)) return 12;
    size_t needed = method == 5 ? 2 * (size_t)inputs : inputs;
    if (scratch_length < needed) return 13;
    return dirty(scratch, needed) ? 19 : 0;
}

static uint8_t plain_2(uint32_t n, size_t x0, size_t r1, size_t r2, uint8_t s1, uint8_t s2, size_t r3, const uint8_t *table, uint8_t *scratch) {
    size_t turns = (size_t)1 << n, mixed = r1 ^ r3;
    BARRIER(mixed);
    mixed ^= r2;
    for (size_t a = 0; a < turns; a++) {
        uint8_t entry = table[x0 ^ a] ^ s1;
        BARRIER(entry);
        scratch[a ^ mixed] = entry ^ s2;
    }
    return scratch[r3];
}

static uint8_t plain_3(uint32_t n, size_t x0, size_t r1, size_t r2, uint8_t s1, uint8_t s2, size_t r3, uint8_t b, const uint8_t *table,
                       uint8_t *scratch) {
    size_t turns = (size_t)1 << n;
    uint8_t registers[2] = {0, 0};
    memset(scratch, 1 - b, turns);
    scratch[r3] = b;
    for (size_t a = 0; a < turns; a++) {
        size_t place = (r1 ^ a) ^ r3;
        uint8_t entry = table[x0 ^ a] ^ s1;
        BARRIER(place);
        BARRIER(entry);
        registers[scratch[place ^ r2]] = entry ^ s2;
    }
    return registers[b];
}

// No two masks meet in a register here: the first goes to memory with the entry, and the second is added to what is read again.
static uint8_t plain_5(uint32_t n, size_t x0, size_t r1, size_t r2, uint8_t s1, uint8_t s2, const uint8_t *table, uint8_t *scratch) {
    size_t turns = (size_t)1 << n;
    uint8_t *second = scratch + turns;
    for (size_t a = 0; a < turns; a++) scratch[a] = table[a ^ r1] ^ s1;
    for (size_t a = 0; a < turns; a++) second[a] = scratch[a ^ r2] ^ s2;
    return second[x0];
}

static inline uint8_t bare(uint32_t method, uint32_t n, uint32_t x0, uint32_t r1, uint32_t r2, uint32_t s1, uint32_t s2, uint32_t r3,
                           uint32_t b, const uint8_t *table, uint8_t *scratch) {
    if (method == 2) return plain_2(n, x0, r1, r2, (uint8_t)s1, (uint8_t)s2, r3, table, scratch);
    if (method == 3) return plain_3(n, x0, r1, r2, (uint8_t)s1, (uint8_t)s2, r3, (uint8_t)b, table, scratch);
    return plain_5(n, x0, r1, r2, (uint8_t)s1, (uint8_t)s2, table, scratch);
}

PLAIN_CALL(NAME(bare_call)) {
    (void)m, (void)table_length, (void)scratch_length;
    return bare(method, n, x0, r1, r2, s1, s2, r3, b, table, scratch);
}

PLAIN_CALL(NAME(plain_call)) {
    if (method != 2 && method != 3 && method != 5) return 2 * 256;
    unsigned number = table_refusal(n, m, table, table_length);
    if (!number) number = mask_refusal(method, 1u << n, 1u << m, x0, r1, r2, s1, s2, r3, b, scratch, scratch_length);
    return (uint16_t)(number ? number * 256 : bare(method, n, x0, r1, r2, s1, s2, r3, b, table, scratch));
}

static uint32_t *put(uint32_t *log, uint32_t kind, uint32_t value) {
    *log = kind << 16 | value;
    return log + 1;
}

static uint8_t logged_2(uint32_t n, uint32_t x0, uint32_t r1, uint32_t r2, uint32_t s1, uint32_t s2, uint32_t r3, const uint8_t *table,
                        uint8_t *scratch, uint32_t *log) {
    uint32_t turns = 1u << n, mixed = r1 ^ r3, first = mixed ^ r2;
    log = put(put(put(put(log, 10, x0), 1, r1), 2, r2), 3, s1);
    log = put(put(put(put(log, 4, s2), 5, r3), 6, mixed), 7, first);
    for (uint32_t a = 0; a < turns; a++) {
        uint32_t place = a ^ first, from = x0 ^ a, entry = table[from], once = entry ^ s1, both = once ^ s2;
        scratch[place] = (uint8_t)both;
        log = put(put(put(put(put(put(log, 8, a), 9, place), 11, from), 12, entry), 13, once), 14, both);
    }
    uint8_t answer = scratch[r3];
    put(put(log, 5, r3), 15, answer);
    return answer;
}

static uint8_t logged_3(uint32_t n, uint32_t x0, uint32_t r1, uint32_t r2, uint32_t s1, uint32_t s2, uint32_t r3, uint32_t b,
                        const uint8_t *table, uint8_t *scratch, uint32_t *log) {
    uint32_t turns = 1u << n;
    uint8_t registers[2] = {0, 0};
    memset(scratch, (int)(1 - b), turns);
    scratch[r3] = (uint8_t)b;
    log = put(put(put(put(log, 11, x0), 1, r1), 2, r2), 3, s1);
    log = put(put(put(put(log, 4, s2), 6, b), 5, r3), 18, 1 - b);
    for (uint32_t a = 0; a < turns; a++) {
        uint32_t once = r1 ^ a, twice = once ^ r3, place = twice ^ r2, compared = scratch[place];
        uint32_t from = x0 ^ a, entry = table[from], first = entry ^ s1, both = first ^ s2;
        registers[compared] = (uint8_t)both;
        log = put(put(put(put(put(log, 7, a), 8, once), 9, twice), 17, place), 10, compared);
        log = put(put(put(put(log, 12, from), 13, entry), 14, first), 15, both);
    }
    put(put(log, 6, b), 16, registers[b]);
    return registers[b];
}

static uint8_t logged_5(uint32_t n, uint32_t x0, uint32_t r1, uint32_t r2, uint32_t s1, uint32_t s2, const uint8_t *table,
                        uint8_t *scratch, uint32_t *log) {
    uint32_t turns = 1u << n;
    uint8_t *second = scratch + turns;
    log = put(put(put(put(put(log, 1, x0), 2, r1), 3, r2), 4, s1), 5, s2);
    for (uint32_t a = 0; a < turns; a++) {
        uint32_t from = a ^ r1, entry = table[from], once = entry ^ s1;
        scratch[a] = (uint8_t)once;
        log = put(put(put(put(log, 6, a), 7, from), 8, entry), 9, once);
    }
    for (uint32_t a = 0; a < turns; a++) {
        uint32_t from = a ^ r2, once = scratch[from], both = once ^ s2;
        second[a] = (uint8_t)both;
        log = put(put(put(put(log, 6, a), 10, from), 11, once), 12, both);
    }
    put(put(log, 1, x0), 13, second[x0]);
    return second[x0];
}

static size_t entries_of_log(uint32_t method, uint32_t n) {
    return method == 2 ? 10 + ((size_t)6 << n) : method == 3 ? 10 + ((size_t)9 << n) : 7 + ((size_t)8 << n);
}

LOGGED_CALL(NAME(logged_call)) {
    if (method != 2 && method != 3 && method != 5) return 2 * 256;
    unsigned number = table_refusal(n, m, table, table_length);
    if (!number) number = mask_refusal(method, 1u << n, 1u << m, x0, r1, r2, s1, s2, r3, b, scratch, scratch_length);
    if (!number && log_length < entries_of_log(method, n)) number = 14;
    if (number) return (uint16_t)(number * 256);
    if (method == 2) return logged_2(n, x0, r1, r2, s1, s2, r3, table, scratch, log);
    if (method == 3) return logged_3(n, x0, r1, r2, s1, s2, r3, b, table, scratch, log);
    return logged_5(n, x0, r1, r2, s1, s2, table, scratch, log);
}
