// The calls on tables that are fit, and on ones that miss it by little: a group of plain_call_test.c.
#include "fit_tables.h"

#include "tables.h"
#include "trial.h"

enum { TABLES = 8 };

static void fit_at(struct shape shape) {
    struct trial trial = on_zeros(some_method(), shape.n, shape.m);
    fill_fit(trial.table, shape);
    expect(&trial, 0, "a coset");
    for (uint32_t wider = shape.m + 1; wider <= 8; wider++) {
        expect_with(&trial, M, wider, 0, "a coset of a wider output");
    }
}

// At n = 1 there are two entries at most that differ, and every table is fit.
static void changed_entry_at(struct shape shape) {
    struct trial trial = on_zeros(some_method(), shape.n, shape.m);
    fill_fit(trial.table, shape);
    change_entry(trial.table, shape);
    expect(&trial, shape.n == 1 ? 0 : 7, "one entry changed");
}

static void refused_at(struct shape shape, void (*fill)(uint8_t *, struct shape), const char *what) {
    struct trial trial = on_zeros(some_method(), shape.n, shape.m);
    fill(trial.table, shape);
    expect(&trial, 7, what);
}

static void tables_at(struct shape shape) {
    for (int each = 0; each < TABLES; each++) {
        fit_at(shape);
        changed_entry_at(shape);
        if (shape.rank >= 2 && shape.rank < shape.m) {
            refused_at(shape, fill_with_stranger, "equally often, one value not of the coset");
            refused_at(shape, fill_from_two, "equally often, from two cosets");
        }
        if (shape.rank >= 1 && shape.rank < shape.n) {
            refused_at(shape, fill_unequally, "a coset, unequally often");
        }
    }
}

void fit_tables(void) {
    for (uint32_t n = 1; n <= 8; n++) {
        for (uint32_t m = 1; m <= 8; m++) {
            for (uint32_t rank = 0; rank <= n && rank <= m; rank++) {
                tables_at((struct shape){n, m, rank});
            }
        }
    }
}
