# Inputs for the test of the count sheet's print, legal and damaged. What each must print is the model's to say.
import random

import tables
from counts import ProbePair
from damage import damaged
from document import TABLE_A
from editions import NEW, OLD
from model import METHODS, log_length
from sheets import SAMPLE as CASE_SAMPLE, WIDE, changed, line, mutated_sheet, sheet as probe_sheet

P12_PAIR = ProbePair(method=2, n=1, m=1, secret=0, first=0, second=21)
SAMPLE = probe_sheet(P12_PAIR, [1, 0])
PAIR = ProbePair(method=3, n=2, m=2, secret=3, first=16, second=45)
PAIR_BY_5 = ProbePair(method=5, n=2, m=2, secret=3, first=24, second=38)


# A pair of positions of an accepted count, and its table.
def accepted(chance, method, n, m):
    first, second = (chance.randrange(log_length(method, n)) for _ in range(2))
    return ProbePair(method, n, m, chance.randrange(2**n), first, second), tables.any_fit(chance, n, m)


# Inputs whose numbers meet each refusal, with neighbours that do not.
def refused():
    values = {
        "method": (0, 1, 2, 4, 5, 6, 255),
        "n": (0, 1, 3, 8, 9, 255),
        "m": (0, 1, 3, 4, 8, 9, 255),
        "secret": (0, 4, 255),
        "first": (0, 45, 46, 255),
        "second": (0, 45, 46, 255),
    }
    pairs = [pair for name in values for pair in changed(PAIR, name, values[name])]
    pairs += [pair for name in ("first", "second") for pair in changed(PAIR_BY_5, name, (0, 38, 39))]
    yield from (probe_sheet(pair, TABLE_A) for pair in pairs)
    for length in (0, 1, 3, 5, 255, 256):
        yield probe_sheet(PAIR, (TABLE_A * 64)[:length])
    for entry in (3, 4, 255):
        yield probe_sheet(PAIR, [entry, 0, 2, 1])
    yield from (probe_sheet(pair._replace(m=1), [0, 0, 0, 1]) for pair in (PAIR, PAIR_BY_5))
    yield from (probe_sheet(PAIR._replace(m=3), table) for table in ([0, 1, 2, 4], [1, 2, 4, 7], [6, 6, 6, 6]))
    yield from (probe_sheet(P12_PAIR._replace(m=m), [0, 3]) for m in (1, 2, 3, 4))
    yield probe_sheet(PAIR._replace(method=4, n=9), TABLE_A)
    yield probe_sheet(PAIR._replace(secret=4, first=46), TABLE_A)


# Numbers above 255, in each place: some would be accepted if they were cut to a byte, some tables also if what is too large became 255.
def above_255():
    for name, value in PAIR._asdict().items():
        yield from (probe_sheet(pair, TABLE_A) for pair in changed(PAIR, name, (*WIDE, 256 + value, 65280 + value)))
    for entry in WIDE:
        yield from (probe_sheet(PAIR, tables.with_entry(TABLE_A, place, entry)) for place in range(4))
        yield from (probe_sheet(P12_PAIR._replace(m=m), [0, entry]) for m in range(1, 9))
    wide = tables.with_entry(TABLE_A, 1, 300)
    for name, values in {"method": (4, 258), "n": (0, 9, 258), "m": (0, 9, 258), "secret": (4,), "first": (46,)}.items():
        yield from (probe_sheet(pair, wide) for pair in changed(PAIR, name, values))
    yield from (probe_sheet(PAIR, table) for table in (wide[:3], [*TABLE_A, 300], [300] * 256, [0, 0, 0, 300]))


# n or m above 3: before a position that is too large, behind a secret that is.
def too_wide(chance):
    for n in range(1, 9):
        least = 1 if n > 3 else 4
        known = (2, least, 0, 0), (3, 8, 2**n - 1, 65535), (2, least + 2, 2**n, 9), (3, 4, 2**n - 1, 9), (5, 8, 2**n - 1, 9)
        for method, m, secret, first in known:
            yield probe_sheet(ProbePair(method, n, m, secret, first, 9), tables.any_fit(chance, n, m))


# The sheets of the gate's test program and of the linked program's test.
def all_sheets():
    chance = random.Random(11)
    yield from (SAMPLE, probe_sheet(P12_PAIR._replace(secret=1), [1, 0]), probe_sheet(PAIR, TABLE_A), b"", probe_sheet(PAIR, []))
    yield probe_sheet(PAIR_BY_5, TABLE_A)
    for method in METHODS:
        for n in range(1, 4):
            for m in range(1, 4):
                yield from (probe_sheet(*accepted(chance, method, n, m)) for _ in range(2))
    yield probe_sheet(ProbePair(3, 3, 3, 1, 71, 71), tables.full(chance, 3, 3))
    yield from refused()
    yield from above_255()
    yield from too_wide(chance)
    yield from damaged(SAMPLE)
    yield from damaged(probe_sheet(PAIR, TABLE_A))
    full = probe_sheet(PAIR._replace(n=8), tables.full(chance, 8, 2))
    yield from (full, full + line(NEW, 0), full[:-1], full + full)
    yield from (probe_sheet(P12_PAIR, [1, 0], OLD), CASE_SAMPLE)


# Widths that the model counts soon.
def mutated(chance):
    return mutated_sheet(chance, *accepted(chance, chance.choice(METHODS), *chance.choice(((1, 1), (1, 2), (2, 1), (2, 2)))))
