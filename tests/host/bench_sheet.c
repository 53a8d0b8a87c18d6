// Calls worked by hand: a group of plain_call_test.c.
#include "bench_sheet.h"

#include "trial.h"

static void dirty_scratch_of_p2(struct trial p2) {
    expect_dirt(p2, 0, 1, 19, "P2, dirty in its first byte");
    expect_dirt(p2, 3, 1, 19, "P2, dirty in its last byte");
    p2.scratch_length = 5;
    p2.scratch[4] = 9;
    expect_whole(&p2, 2, (const uint8_t[]){3, 1, 2, 0, 9}, "P2, dirty behind its four bytes");
    make_dirty(&p2, 0);
    p2.scratch_length = 3;
    expect(&p2, 13, "P7, dirty");
}

// The tables that a request names: the valve maker's, another without 0, one that is not fit since it has no 3 beside its 0, 1 and 2, and
// P5's with the greatest m and with one above it.
static void tables_of_the_request(const struct trial *p5) {
    const struct trial valve = {{2, 1, 2, 0, 1, 0, 2, 0, 1, 0}, {0, 3}, {0}, 2, 2};
    const struct trial without_0 = {{2, 1, 2, 0, 1, 0, 2, 0, 1, 0}, {2, 1}, {0}, 2, 2};
    const struct trial not_closed = {{2, 2, 3, 0, 1, 2, 3, 0, 2, 0}, {0, 1, 2, 4}, {0}, 4, 4};
    expect_whole(&valve, 1, (const uint8_t[]){2, 1}, "0, 3");
    expect_whole(&without_0, 3, (const uint8_t[]){0, 3}, "2, 1");
    expect(&not_closed, 7, "0, 1, 2, 4");
    expect_with(p5, M, 8, 0, "P5 with m = 8");
    expect_with(p5, M, 9, 4, "P5 with m = 9");
}

// P2's numbers under method 5, without r3, and another case in which both output masks and both input masks matter.
static void method_5(void) {
    const struct trial p2 = {{5, 2, 2, 0, 1, 2, 3, 0, 0, 0}, {2, 0, 3, 1}, {0}, 4, 8};
    const struct trial other = {{5, 2, 2, 1, 3, 2, 2, 3, 0, 0}, {1, 3, 0, 2}, {[8] = 9}, 4, 9};
    expect_whole(&p2, 2, (const uint8_t[]){3, 1, 2, 0, 2, 0, 3, 1}, "P2, method 5");
    expect_whole(&other, 0, (const uint8_t[]){0, 2, 1, 3, 2, 0, 3, 1, 9}, "1, 3, 0, 2, method 5, dirty behind its eight bytes");
    expect_with(&p2, R3, 2, 12, "P2, method 5, with its r3");
    expect_with(&p2, R3, 4, 10, "P2, method 5, r3 too large");
    expect_with(&p2, B, 1, 12, "P9, method 5");
    expect_with(&p2, METHOD, 4, 2, "method 4");
    expect_with(&p2, METHOD, 6, 2, "method 6");
    expect_lengths(p2, 4, 7, 13, "P7, method 5");
    expect_lengths(p2, 4, 4, 13, "P7, method 5, room for one half");
    expect_dirt(p2, 0, 1, 19, "P2, method 5, dirty in its first byte");
    expect_dirt(p2, 3, 1, 19, "P2, method 5, dirty in the first half's last byte");
    expect_dirt(p2, 4, 1, 19, "P2, method 5, dirty in the second half's first byte");
    expect_dirt(p2, 7, 1, 19, "P2, method 5, dirty in its last byte");
}

void bench_sheet(void) {
    const struct trial p1 = {{2, 1, 1, 0, 1, 0, 0, 1, 1, 0}, {1, 0}, {0}, 2, 2};
    const struct trial p2 = {{2, 2, 2, 0, 1, 2, 3, 0, 2, 0}, {2, 0, 3, 1}, {0}, 4, 4};
    const struct trial p3 = {{3, 2, 2, 0, 1, 2, 3, 0, 2, 1}, {2, 0, 3, 1}, {0}, 4, 4};
    const struct trial p5 = {{2, 2, 3, 0, 1, 2, 3, 0, 2, 0}, {2, 0, 3, 1}, {0}, 4, 4};
    const struct trial p6 = {{2, 2, 1, 0, 1, 2, 1, 0, 2, 0}, {0, 0, 0, 1}, {0}, 4, 4};
    const struct trial p6_accepted = {{2, 2, 1, 0, 1, 2, 1, 0, 2, 0}, {0, 1, 1, 0}, {0}, 4, 4};
    const struct trial p10 = {{4, 9, 2, 0, 1, 2, 3, 0, 2, 0}, {2, 0, 3, 1}, {0}, 4, 4};
    expect_whole(&p1, 1, (const uint8_t[]){0, 1}, "P1");
    expect_whole(&p2, 2, (const uint8_t[]){3, 1, 2, 0}, "P2");
    expect_whole(&p3, 2, (const uint8_t[]){0, 0, 1, 0}, "P3");
    expect_with(&p2, X0, 4, 10, "P4");
    expect_with(&p2, X0, 3, 0, "P4, accepted");
    expect_whole(&p5, 2, (const uint8_t[]){3, 1, 2, 0}, "P5");
    expect(&p6, 7, "P6");
    expect(&p6_accepted, 0, "P6, accepted");
    expect_lengths(p2, 4, 3, 13, "P7");
    expect_lengths(p2, 4, 4, 0, "P7, accepted");
    expect_with(&p2, B, 1, 12, "P9, method 2");
    expect_with(&p3, B, 2, 12, "P9, method 3");
    expect(&p10, 2, "P10");
    dirty_scratch_of_p2(p2);
    tables_of_the_request(&p5);
    method_5();
}
