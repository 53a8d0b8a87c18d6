# Holds what the model counts of chained calls to what is required of it (docs/REFERENCE.md): the counts are the same for any two inputs
# where both tables are fit, and else are not. Each group yields a name, what the model says and what it should say.
import itertools
from collections import Counter

import chain
from check_chain import ONE_BIT, PAIRINGS, TABLE_21
from document import TABLE_A
from probes import differing


# Widths, tables, inputs and pairings that are counted. The table of three bits is their majority, which is not linear. Fit tables that are
# not balanced stand in the first place, in the second, and in both.
ALIKE = [(2, 2), (5, 5)]
COUNTED = [
    ((1, 1, 1), ONE_BIT, (0, 1), PAIRINGS),
    ((1, 2, 1), [[0, 3], TABLE_21], (0, 1), PAIRINGS),
    ((1, 2, 2), [[1, 2], [2, 2, 1, 1]], (0, 1), PAIRINGS),
    ((1, 1, 2), [[1, 0], [3, 1]], (0, 1), PAIRINGS),
    ((2, 1, 1), [[1, 1, 1, 1], [0, 0]], (0, 3), ALIKE),
    ((2, 1, 1), [TABLE_21, [0, 1]], (0, 1, 2, 3), PAIRINGS),
    ((2, 2, 1), [TABLE_A, TABLE_21], (0, 3), PAIRINGS),
    ((3, 1, 1), [[0, 0, 0, 1, 0, 1, 1, 1], [1, 0]], (0, 7), ALIKE),
]


def counts():
    for widths, tables, secrets, pairings in COUNTED:
        for methods in pairings:
            shown = chain.shown_values(methods, widths, tables, 0)
            for secret in secrets[1:]:
                other = chain.shown_values(methods, widths, tables, secret)
                yield f"widths {widths}, methods {methods}, inputs 0 and {secret}", list(differing(shown, other)), []


def pair_counts(shown, i, j):
    return Counter(zip(shown[i], shown[j]))


# What is shown where the second call's output masks are the first's. At widths of 1 under method 2 these are positions 3 and 4 of each log.
def masks_twice(secret):
    shown = chain.shown_values((2, 2), (1, 1, 1), ONE_BIT, secret)
    twice = [masks[:2] == masks[2:] for masks in zip(shown[3], shown[4], shown[22 + 3], shown[22 + 4])]
    return [bytes(itertools.compress(column, twice)) for column in shown]


# Worked by hand. Position 12 of the second log is T[x0] + s1: with the first's output masks and these tables it is x + s2. A table that is
# not fit shows in a chain what it shows alone, as often again as the other masks have choices.
def leaks():
    for secret in (0, 1):
        yield f"masks twice at {secret}", pair_counts(masks_twice(secret), 4, 22 + 12), {(0, secret): 32, (1, 1 - secret): 32}
    yield "masks twice", (4, 22 + 12) in differing(masks_twice(0), masks_twice(1)), True
    unfit = [0, 0, 0, 1]
    first, second = ((2, 1, 1), [unfit, [1, 0]]), ((2, 2, 1), [[0, 1, 2, 3], unfit])
    by_2, by_5 = (2, 13, 33, (96, 32)), (5, 24, 38, (24, 8))
    for (widths, tables), at, times, (method, entry, answer, figures) in (
        (first, 0, 8, by_2),
        (second, 34, 64, by_2),
        (first, 0, 4, by_5),
        (second, 39, 16, by_5),
    ):
        shown = {secret: chain.shown_values((method, method), widths, tables, secret) for secret in (0, 3)}
        for secret, figure in zip(shown, figures):
            yield f"{tables} at {secret}, method {method}", pair_counts(shown[secret], at + entry, at + answer)[0, 0], figure * times
        yield f"{tables}, method {method}", (at + entry, at + answer) in differing(*shown.values()), True


# The quick ones come first.
GROUPS = (leaks, counts)
