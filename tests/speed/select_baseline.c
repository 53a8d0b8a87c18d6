// The choice of one half by a masked bit in C, as a careful engineer would write it without proofs: see baseline.h. Compiled with
// -DSELECT=NAME, and -DLOGGED_SELECT=NAME where the logged one is wanted too. -DGUARDED puts the barriers in. What the audit must catch has
// besides one of
//   -DEARLY     c1 and c2 are joined before b
//   -DLATE      t1 is added to what was chosen, not to both halves
//   -DCOMPARED  c3 is compared with b
//   -DJOINED    z1 and z2 are joined
#include "baseline.h"
#include "barrier.h"

enum { LOG_LENGTH = 28 };

struct numbers {
    uint32_t width, z0, z1, z2, c0, c1, c2, t1, t2, b;
};

// A cell for each of the two halves, of the word's three shares.
struct cells {
    uint8_t a[2], b[2], c[2];
};

// A comparison that is not merged with another, as in baseline.c.
static inline unsigned from(uint32_t limit, uint32_t value) {
    unsigned at_least = value >= limit;
    BARRIER(at_least);
    return at_least;
}

static unsigned select_refusal(const struct numbers *n) {
    if (n->width < 1 || n->width > 8) return 20;
    uint32_t words = 1u << 2 * n->width, halves = 1u << n->width;
    if (from(words, n->z0) || from(words, n->z1) || from(words, n->z2)) return 21;
    if (from(2, n->c0) || from(2, n->c1) || from(2, n->c2)) return 21;
    return from(halves, n->t1) || from(halves, n->t2) || from(2, n->b) ? 21 : 0;
}

// The high half for 0, the low one for 1, from memory. A shift by 0 or the width would leave, where it is 0, the flags of the instruction
// before: these would tell of a masked half and of `which` at once.
static inline uint32_t half(uint32_t which, uint32_t word, uint32_t width) {
    uint8_t halves[2] = {(uint8_t)(word >> width), (uint8_t)(word & ((1u << width) - 1))};
    return halves[which];
}

static inline uint32_t cell_number(const struct numbers *n) {
#ifdef EARLY
    uint32_t first = n->c1 ^ n->c2, last = n->b;
#else
    uint32_t first = n->c1 ^ n->b, last = n->c2;
#endif
    BARRIER(first);
    return first ^ last;
}

// What the last two variants do besides.
static inline void misuse(const struct numbers *n, uint32_t c3) {
#ifdef COMPARED
    unsigned same = c3 == n->b;
    BARRIER(same);
#elif defined JOINED
    uint32_t joined = n->z1 ^ n->z2;
    BARRIER(joined);
#endif
    (void)n, (void)c3;
}

static inline void put_halves(struct cells *cells, uint32_t at, uint32_t which, const struct numbers *n) {
    uint32_t first = half(which, n->z0, n->width), second = half(which, n->z1, n->width), third = half(which, n->z2, n->width);
#ifndef LATE
    first ^= n->t1;
#endif
    BARRIER(first);
    third ^= n->t1;
    BARRIER(third);
    cells->a[at] = (uint8_t)first, cells->b[at] = (uint8_t)(second ^ n->t2), cells->c[at] = (uint8_t)(third ^ n->t2);
}

SELECT_CALL(SELECT) {
    struct numbers n = {width, z0, z1, z2, c0, c1, c2, t1, t2, b};
    struct cells cells;
    unsigned number = select_refusal(&n);
    if (number) return number;
    uint32_t c3 = cell_number(&n);
    misuse(&n, c3);
    put_halves(&cells, c3, c0, &n);
    put_halves(&cells, 1 - c3, 1 - c0, &n);
    *share0 = cells.a[b], *share1 = cells.b[b], *share2 = cells.c[b];
#ifdef LATE
    *share0 ^= (uint8_t)t1;
#endif
    return 0;
}

#ifdef LOGGED_SELECT
static uint32_t *put(uint32_t *log, uint32_t kind, uint32_t value) {
    *log = kind << 16 | value;
    return log + 1;
}

// Steps 4 to 6, and with the other half and cell steps 7 to 9. The kinds go on from the first, but for 24, which is none.
static uint32_t *log_halves(uint32_t *log, uint32_t kind, struct cells *cells, uint32_t at, uint32_t which, const struct numbers *n) {
    uint32_t a = half(which, n->z0, n->width), b = half(which, n->z1, n->width), c = half(which, n->z2, n->width);
    uint32_t last = kind == 12 ? 17 : 25, masked = c ^ n->t1;
    BARRIER(masked);
    log = put(put(put(put(log, kind, a), kind + 1, a ^ n->t1), kind + 2, b), kind + 3, b ^ n->t2);
    cells->a[at] = (uint8_t)(a ^ n->t1), cells->b[at] = (uint8_t)(b ^ n->t2), cells->c[at] = (uint8_t)(masked ^ n->t2);
    return put(put(put(log, kind + 4, c), last, masked), last + 1, masked ^ n->t2);
}

LOGGED_SELECT_CALL(LOGGED_SELECT) {
    struct numbers n = {width, z0, z1, z2, c0, c1, c2, t1, t2, b};
    struct cells cells;
    unsigned number = select_refusal(&n);
    if (!number && log_length < LOG_LENGTH) number = 14;
    if (number) return number;
    uint32_t first = c1 ^ b;
    BARRIER(first);
    uint32_t c3 = first ^ c2;
    log = put(put(put(put(log, 1, z0), 2, z1), 3, z2), 11, c0);
    log = put(put(put(put(log, 4, c1), 5, c2), 6, t1), 7, t2);
    log = put(put(put(log, 8, b), 9, first), 10, c3);
    log = log_halves(log, 12, &cells, c3, c0, &n);
    log = log_halves(log, 19, &cells, 1 - c3, 1 - c0, &n);
    put(put(put(log, 27, cells.a[b]), 28, cells.b[b]), 29, cells.c[b]);
    return 0;
}
#endif
