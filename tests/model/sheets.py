# Case sheets for the tests of the bench print, of the page and of the converters, legal and damaged, in either edition. What each must
# print is the model's to say.
import random

import model
import tables
from damage import damaged, mutated_text
from document import TABLE_A
from editions import NEW, OLD

P1 = model.Case(2, 1, 1, 0, 1, 0, 0, 1, 1, 0)
P2 = model.Case(2, 2, 2, 0, 1, 2, 3, 0, 2, 0)
P3 = P2._replace(method=3, b=1)
P2_BY_5 = P2._replace(method=5, r3=0)
VALVE = model.Case(3, 1, 2, 0, 1, 0, 0, 3, 1, 1)
WHOLE = VALVE._replace(n=8, m=8)

# Numbers that fit no byte: two that are 0 and 1 if they are cut to one, one that is then a method, one that is then large, the largest.
WIDE = (256, 257, 258, 300, 65535)


def line(edition, *numbers):
    return b"".join(b"%*d" % (edition.columns, number) for number in numbers) + b"\n"


# The first line is a case, or what another program reads there.
def sheet(first, table, edition=NEW):
    return line(edition, *first) + b"".join(line(edition, entry) for entry in table)


SAMPLE = sheet(P1, [1, 0])
OLD_SAMPLE = sheet(P1, [1, 0], OLD)


# What follows, up to the legal sheets, is cases and their tables.


def accepted_case(chance, method, n, m):
    below = lambda width: chance.randrange(2**width)
    own = map(chance.choice, model.drawn(method, n))
    return model.Case(method, n, m, below(n), below(n), below(n), below(m), below(m), *own)


def accepted(chance, method, n, m):
    return accepted_case(chance, method, n, m), tables.any_fit(chance, n, m)


# Those of the bench sheet come first.
def all_accepted(chance):
    yield from ((P1, [1, 0]), (P2, TABLE_A), (P3, TABLE_A))
    for method in model.METHODS:
        for n in range(1, 5):
            for m in range(1, 5):
                yield accepted(chance, method, n, m)
        yield from (accepted(chance, method, n, m) for n, m in ((3, 8), (6, 3), (8, 8)))


# A case with one of its numbers changed.
def changed(case, name, values):
    return [case._replace(**{name: value}) for value in values]


# Tables that meet a refusal, with neighbours that do not.
def refused_tables():
    yield from ((P2, (TABLE_A * 64)[:length]) for length in (0, 1, 3, 5, 255, 256))
    yield from ((P2, [entry, 0, 2, 1]) for entry in (3, 4, 255))
    yield from ((P2._replace(m=1, s1=1), table) for table in ([0, 0, 0, 1], [0, 1, 1, 0]))
    yield P2, [2, 0, 3, 3]
    for table in ([0, 1, 2, 4], [1, 2, 4, 7], [7, 0, 0, 7], [5, 5, 5, 5], [0, 1, 2, 8]):
        yield P2._replace(m=3, s2=7), table
    yield from ((VALVE._replace(m=m, s2=s2), [0, 3]) for m, s2 in ((2, 3), (2, 4), (1, 0), (8, 255)))
    yield P2_BY_5, [0, 0, 0, 1]


# Cases whose numbers meet each refusal, with neighbours that do not.
def refused_cases():
    yield from changed(P2, "method", (0, 1, 2, 3, 4, 5, 6, 99, 255))
    yield from changed(P2, "n", (0, 1, 2, 8, 9, 255))
    yield from changed(P2, "m", (0, 1, 2, 3, 8, 9, 255))
    for name in ("x0", "r1", "r2", "r3", "s1", "s2"):
        yield from changed(P2, name, (3, 4, 255))
    for case in (P2, P3, P2_BY_5):
        yield from changed(case, "b", (0, 1, 2, 255))
    yield from (P2_BY_5._replace(r3=r3, b=b) for r3 in (1, 2, 3, 4, 255) for b in (0, 1))
    yield from (P2_BY_5._replace(r3=r3, s1=4) for r3 in (0, 3, 4))
    yield P2._replace(method=4, n=9)
    yield model.Case(*[255] * 10)


# Numbers above 255, in each place: some would be accepted if they were cut to a byte.
def wide_cases():
    for name, value in P3._asdict().items():
        yield from changed(P3, name, (*WIDE, 256 + value, 65280 + value))
    yield from changed(P2_BY_5, "r3", (256, 65535))
    yield from changed(P2_BY_5, "b", (256, 65535))
    yield model.Case(*[65535] * 10)


# Entries above 255, alone and beside what is refused before and after them. Some tables would be fit if they were cut to bytes, or if what
# is too large became 255.
def wide_tables():
    for entry in WIDE:
        yield from ((P2, tables.with_entry(TABLE_A, place, entry)) for place in range(4))
        yield from ((VALVE._replace(m=m, s2=0), [0, entry]) for m in range(1, 9))
        yield from ((VALVE._replace(m=m, s2=0), [entry, entry]) for m in (1, 8))
    table = tables.with_entry(TABLE_A, 1, 300)
    for name, values in {"method": (4, 258), "n": (0, 9, 258), "m": (0, 9, 258), "x0": (4,), "s1": (4,), "b": (1,)}.items():
        yield from ((case, table) for case in changed(P2, name, values))
    yield from ((P2, other) for other in (table[:3], [*TABLE_A, 300], [300], [300] * 256, [0, 0, 0, 300], [2, 0, 3, 3 + 256]))
    yield from ((WHOLE, list(entries)) for entries in (range(256, 512), range(1, 257)))


# Shares and masks above 255 at the full width: 255 in their place would be accepted.
def wide_masks():
    for name in ("x0", "r1", "r2", "s1", "s2", "r3"):
        yield from ((case, list(range(256))) for case in changed(WHOLE, name, (256, 65535)))


# Numbers that both editions can write. Those of the first two sheets are accepted.
def narrow():
    return [*all_accepted(random.Random(5)), (P2, []), *((case, TABLE_A) for case in refused_cases()), *refused_tables()]


def wide():
    return [*((case, TABLE_A) for case in wide_cases()), *wide_tables(), *wide_masks()]


# Sheets that have the form of this edition.
def legal(edition=NEW):
    return (sheet(case, table, edition) for case, table in (*narrow(), *(wide() if edition == NEW else ())))


# The sheets of the gate's test program and of the linked program's test.
def all_sheets(edition=NEW):
    yield from legal(edition)
    yield from (b"", sheet(P1, [1, 0], OLD if edition == NEW else NEW))
    yield from damaged(sheet(P2, TABLE_A, edition), edition)
    yield from damaged(sheet(P1, [1, 0], edition), edition)
    full = sheet(*accepted(random.Random(4), 2, 8, 5), edition)
    yield from (full, full + line(edition, 0), full[:-1], full[: -edition.columns - 1] + b"\n", full + full)


# The same for the page: with two more widths every n comes under every method.
def page_sheets():
    yield from all_sheets()
    chance = random.Random(9)
    yield from (sheet(*accepted(chance, method, n, n)) for method in model.METHODS for n in (5, 7))


# Sheets of the gate's test program alone: every table of small widths, and some of the next, with r3 too large. A fit one meets 10, so that
# little is printed.
def small_tables():
    chance = random.Random(6)
    some = chance.sample(list(tables.every(2, 3)), 200)
    for n, m, known in [*((n, m, tables.every(n, m)) for n in (1, 2) for m in (1, 2)), (2, 3, some)]:
        yield from (sheet(accepted_case(chance, chance.choice(model.METHODS), n, m)._replace(r3=4), table) for table in known)


# A sheet one of whose numbers may be any other, and which may then be damaged.
def mutated_sheet(chance, first, table, edition=NEW):
    numbers = [*first, *table]
    if chance.randrange(3) == 0:
        numbers[chance.randrange(len(numbers))] = chance.randrange(2 ** chance.randint(1, 17))
    return mutated_text(chance, sheet(numbers[: len(first)], numbers[len(first) :], edition))


def mutated(chance, edition=NEW):
    widths = chance.choice(((1, 1), (1, 2), (2, 1), (2, 2), (3, 2)))
    return mutated_sheet(chance, *accepted(chance, chance.choice(model.METHODS), *widths), edition)
