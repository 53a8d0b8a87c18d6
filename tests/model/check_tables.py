# Holds the model's notion of a fit table to what is required of it (docs/REFERENCE.md). Each group yields a name, what the model says and
# what it should say.
import random

import model
import tables
from document import KINDS, TABLE_A

# How many tables of so small widths are fit, by hand. At n = 1 all are. At n = 2 it is one value, two values twice each, or four that make
# a coset: at m = 3 these are 8 + 28 * 6 + 14 * 24.
FIT_TABLES = {(1, 1): 4, (1, 2): 16, (1, 3): 64, (2, 1): 8, (2, 2): 64, (2, 3): 512}


# The tables that the requirements name, and others of their widths: the refusal, n, m and the table.
def named():
    known = [
        *((0, 1, 2, table) for table in ([0, 3], [1, 2], [3, 0], [2, 2])),
        *((0, 1, m, [0, 0]) for m in range(1, 9)),
        *((6, 1, 1, table) for table in ([0, 3], [2, 2], [1, 2])),
        (7, 2, 1, [0, 0, 0, 1]),
        (0, 2, 1, [0, 1, 1, 0]),
        *((0, 2, m, TABLE_A) for m in range(2, 9)),
        *((7, 2, m, [0, 1, 2, 4]) for m in range(3, 9)),
        (6, 2, 2, [0, 1, 2, 4]),
        *((0, 2, 3, table) for table in ([1, 2, 4, 7], [0, 7, 7, 0], [6, 6, 6, 6], [0, 3, 5, 6])),
        *((7, 2, 3, table) for table in ([1, 2, 4, 6], [0, 7, 7, 7], [0, 0, 3, 5], [0, 1, 2, 7])),
        *((7, 3, 4, table) for table in ([0, 1, 2, 3, 4, 8, 12, 0], [0, 1, 2, 3, 4, 8, 5, 9], [0, 1, 2, 3, 0, 0, 1, 1])),
    ]
    for refusal, n, m, table in known:
        for method in KINDS:
            yield f"n = {n}, m = {m}, table {table}, method {method}", model.table_refusal(method, n, m, table), refusal


# m outside 1 to 8 comes before any fault of the table, at every n and whatever the table.
def output_widths():
    for n in range(1, 9):
        for table in ([0] * 2**n, [0, 1] * 2 ** (n - 1), [*[0] * (2**n - 1), 1], [255] * 2**n, []):
            for m in (0, 9, 10, 16, 255, 256, 257, 264, 2**32 - 1):
                yield f"n = {n}, m = {m}, table {table}", model.table_refusal(2, n, m, table), 4


# Another way to say it: from each of its entries the table looks the same, by the exclusive or with every entry.
def looks_alike(table):
    return len({tuple(sorted(entry ^ other for other in table)) for entry in table}) == 1


def small_tables():
    for (n, m), number in FIT_TABLES.items():
        fit = [table for table in tables.every(n, m) if model.is_fit(table)]
        yield f"fit tables at n = {n}, m = {m}", len(fit), number
        yield f"which at n = {n}, m = {m}", fit, [table for table in tables.every(n, m) if looks_alike(table)]


# Each value below 2^m stands in exactly 2^(n - m) entries.
def is_balanced(n, m, table):
    return m <= n and all(table.count(value) == 2 ** (n - m) for value in range(2**m))


# Every balanced table is fit, and a fit one in which all values below 2^m occur is balanced.
def balanced_tables():
    chance = random.Random(1)
    for n, m in FIT_TABLES:
        balanced = [table for table in tables.every(n, m) if is_balanced(n, m, table)]
        yield f"balanced at n = {n}, m = {m}", balanced, [t for t in tables.every(n, m) if model.is_fit(t) and len(set(t)) == 2**m]
    for n in range(1, 9):
        for m in range(1, n + 1):
            table = list(range(2**m)) * 2 ** (n - m)
            chance.shuffle(table)
            yield f"balanced, {table}", (is_balanced(n, m, table), model.table_refusal(2, n, m, table)), (True, 0)


# Tables of few and of many values at all widths, and such as are just not fit.
def all_widths():
    chance = random.Random(2)
    for n in range(1, 9):
        for m in range(1, 9):
            fit = [tables.fit(chance, n, m, d) for d in sorted({0, 1, min(n, m) - 1, min(n, m)})]
            kinds = tables.NOT_EVEN * (n > 1) + tables.NOT_CLOSED * (n > 1 and m > 2)
            for wanted, known in ((0, fit), (7, [kind(chance, n, m) for kind in kinds])):
                for table in known:
                    yield f"n = {n}, m = {m}, table {table}", model.table_refusal(3, n, m, table), wanted
                    if n < 7:
                        yield f"{table} looks alike", looks_alike(table), wanted == 0


GROUPS = (named, output_widths, small_tables, balanced_tables, all_widths)
