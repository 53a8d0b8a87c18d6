# Holds the model's choosing of a half to what is required of it (docs/REFERENCE.md), and its counts to being the same for all words and
# bits. Each group yields a name, what the model says and what it should say.
import itertools
import operator
import random
from collections import Counter

import selection
from check_calls import TOP, lent_log
from document import SELECTION_KINDS
from probes import differing
from selection import Case

LENGTH = 28
# The bytes that are lent to the plain call.
LENT = [90, 91, 92]
# Worked by hand. The word is 6 + 12 + 1 = 1011 in bits, + for an exclusive or, its halves are 10 and 11; the bit is 1 + 0 + 1 = 0. Register 0
# takes the halves at 1, register 1 those at 0, and b is 1: the results are 01 + t1, 11 + t2 and 00 + t1 + t2, which join to 10.
BY_HAND = Case(width=2, z0=0b0110, z1=0b1100, z2=0b0001, c0=1, c1=0, c2=1, t1=0b01, t2=0b10, b=1)
BY_HAND_RESULTS = (0b00, 0b01, 0b11)
BY_HAND_LOG = [
    *(65542, 131084, 196609, 720897, 262144, 327681, 393217, 458754, 524289, 589825, 655360),
    *(786434, 851971, 917504, 983042, 1048577, 1114112, 1179650),
    *(1245185, 1310720, 1376259, 1441793, 1507328, 1638401, 1703939),
    *(1769472, 1835009, 1900547),
]


def figures():
    yield "by hand", selection.select(BY_HAND, lent_log(30)), (0, *BY_HAND_RESULTS, LENGTH, BY_HAND_LOG + lent_log(30)[LENGTH:])
    yield "by hand, plain", selection.plain_select(BY_HAND, LENT), (0, [*BY_HAND_RESULTS])
    yield "by hand, c0 = 0", selection.select(BY_HAND._replace(c0=0), lent_log(LENGTH))[:5], (0, 0b11, 0b10, 0b10, LENGTH)
    yield "kinds", (len(SELECTION_KINDS), sorted(SELECTION_KINDS)), (LENGTH, [row for row in range(1, 30) if row != 24])


# The first number that is too large, by name, at a width.
def limits(width):
    return {**dict.fromkeys(("z0", "z1", "z2"), 4**width), **dict.fromkeys(("c0", "c1", "c2", "b"), 2), "t1": 2**width, "t2": 2**width}


# A refused call hands back zeros and keeps what is lent. The plain call knows no 14.
def refused(case, length, refusal):
    log = lent_log(length)
    yield (case, length, "refused"), selection.select(case, log), (refusal, 0, 0, 0, 0, log)
    if refusal != 14:
        yield (case, length, "refused, plain"), selection.plain_select(case, LENT), (refusal, LENT)
    else:
        yield (case, length, "accepted, plain"), selection.plain_select(case, LENT)[0], 0


# What is just inside at every width is accepted, and what is just outside is not.
def neighbours():
    for width in range(1, 9):
        largest = Case(width, **{name: number - 1 for name, number in limits(width).items()})
        zeros = Case(width, *[0] * 9)
        for inside in (largest, zeros):
            yield (inside, "accepted"), selection.select(inside, lent_log(LENGTH))[0], 0
            yield (inside, "accepted, plain"), selection.plain_select(inside, LENT)[0], 0
            for name, number in limits(width).items():
                yield from refused(inside._replace(**{name: number}), LENGTH, 21)
                got = selection.select(zeros._replace(**{name: number - 1}), lent_log(LENGTH))[0]
                yield f"{name} {number - 1} at width {width}", got, 0
        for length in (0, 1, 27):
            yield from refused(largest, length, 14)
        for length in (LENGTH, LENGTH + 1, 64):
            refusal, _, _, _, count, log = selection.select(largest, lent_log(length))
            yield f"log of {length} at width {width}", (refusal, count, log[LENGTH:]), (0, LENGTH, lent_log(length)[LENGTH:])


# Faults in the order of the checks: the refusal, what is faulty and what stands there. It is just outside, or comes inside when it is cut
# to 8, 16 or 31 bits, or is the largest of its type. The other numbers fit width 1.
FINE = Case(3, *[1] * 9)
FAULTS = [
    *((20, "width", width) for width in (0, 9, 16, 256, 259, 65539, 2**31 + 3, TOP)),
    *((21, name, number) for name, limit in limits(3).items() for number in (limit, 256, 65537, 2**31, TOP)),
    *((14, "log", length) for length in (0, 1, 27)),
]


# A fault alone, two in different places, and one of each refusal together: the first in the order is returned.
def refusals():
    each = ([fault for fault in FAULTS if fault[0] == refusal] for refusal in (20, 21, 14))
    for faults in (*((fault,) for fault in FAULTS), *itertools.combinations(FAULTS, 2), *itertools.product(*each)):
        changed = {name: value for _, name, value in faults}
        if len(changed) == len(faults):
            length = changed.pop("log", LENGTH + 2)
            yield from refused(FINE._replace(**changed), length, faults[0][0])


# The half of a word at a bit, by its digits.
def half(at, width, word):
    digits = f"{word:0{2 * width}b}"
    return int(digits[width:] if at else digits[:width], 2)


# The values of Table 3 by row, for a word z and a bit c that are known. Of the rows from 19 on the source means the other half.
def table_3(z, c, case):
    width, _, z1, z2, _, c1, c2, t1, t2, b = case
    z0, c0 = z ^ z1 ^ z2, c ^ c1 ^ c2
    rows = {1: z0, 2: z1, 3: z2, 4: c1, 5: c2, 6: t1, 7: t2, 8: b, 9: c1 ^ b, 10: c1 ^ c2 ^ b, 11: c0}
    rows |= {12: half(c0, width, z0), 14: half(c0, width, z1), 16: half(c0, width, z2)}
    rows |= {19: half(not c0, width, z0), 21: half(not c0, width, z1), 23: half(not c0, width, z2)}
    rows |= {13: rows[12] ^ t1, 15: rows[14] ^ t2, 17: rows[16] ^ t1, 18: rows[16] ^ t1 ^ t2}
    rows |= {20: rows[19] ^ t1, 22: rows[21] ^ t2, 25: rows[23] ^ t1, 26: rows[23] ^ t1 ^ t2}
    rows |= {27: half(c, width, z0) ^ t1, 28: half(c, width, z1) ^ t2, 29: half(c, width, z2) ^ t1 ^ t2}
    return rows


# What an accepted case of a word and a bit comes to: three results that join to the chosen half, the log by Table 3, what stands behind it.
def answer(z, c, case, length):
    rows, lent = table_3(z, c, case), lent_log(length)
    refusal, *results, count, log = selection.select(case, lent)
    yield (case, "joined"), (refusal, results[0] ^ results[1] ^ results[2]), (0, half(c, case.width, z))
    yield (case, "results"), (results, count), ([rows[27], rows[28], rows[29]], LENGTH)
    yield (case, "kinds"), [entry // 65536 for entry in log[:LENGTH]], SELECTION_KINDS
    yield (case, "values"), [entry % 65536 for entry in log[:LENGTH]], [rows[kind] for kind in SELECTION_KINDS]
    yield (case, "behind the log"), log[LENGTH:], lent[LENGTH:]
    yield (case, "plain"), selection.plain_select(case, LENT), (0, [rows[27], rows[28], rows[29]])


# Words, masks and shares at every width, at their ends in every other turn: words of zeros, of ones, and with a half of each.
def drawn_answers():
    chance = random.Random(7)
    for width, turn in itertools.product(range(1, 9), range(64)):
        ones = 2**width - 1
        words = (0, ones, ones << width, 4**width - 1) if turn % 2 else range(4**width)
        z, z1, z2 = (chance.choice(words) for _ in range(3))
        t1, t2 = (chance.choice((0, ones) if turn % 4 > 1 else range(2**width)) for _ in range(2))
        c, c1, c2, b = (chance.randrange(2) for _ in range(4))
        yield from answer(z, c, Case(width, z ^ z1 ^ z2, z1, z2, c ^ c1 ^ c2, c1, c2, t1, t2, b), LENGTH + turn % 3)


SECRETS = list(itertools.product(range(4), range(2)))


def every_answer():
    for z, c in SECRETS:
        for case in selection.choices(1, z, c):
            yield from answer(z, c, case, LENGTH + 1)


# The masks of a choice.
def masks_of(case):
    return case.z1, case.z2, case.c1, case.c2, case.t1, case.t2, case.b


# No choice is left out or comes twice, all are accepted, and the shares join to the word and the bit.
def choices():
    for width, word, bit in (*((1, *secret) for secret in SECRETS), (2, 6, 1)):
        cases, name = list(selection.choices(width, word, bit)), f"word {word} of width {width}, bit {bit}"
        yield f"choices of {name}", (len(cases), len(set(map(masks_of, cases)))), (8 * 64**width, 8 * 64**width)
        yield f"refusals of {name}", {selection.plain_refusal(case) for case in cases}, {0}
        joined = {(case.width, case.z0 ^ case.z1 ^ case.z2, case.c0 ^ case.c1 ^ case.c2) for case in cases}
        yield f"joined {name}", joined, {(width, word, bit)}


# What is counted is what the entries of the log say: one call for each choice at width 1, and for one in 37 at width 2.
def counted_entries():
    for width, word, bit in (*((1, *secret) for secret in SECRETS), (2, 9, 0)):
        step = 1 if width == 1 else 37
        cases = itertools.islice(selection.choices(width, word, bit), 0, None, step)
        logs = (selection.select(case, lent_log(LENGTH))[5] for case in cases)
        values = zip(*([entry % 65536 for entry in log] for log in logs), strict=True)
        shown = selection.shown_values(width, word, bit)
        yield f"entries of word {word} of width {width}, bit {bit}", [tuple(column[::step]) for column in shown], list(values)


# Any two positions show each pair of values equally often for all words and bits: all of width 1, some of width 2.
def counts():
    for width, secrets in ((1, SECRETS), (2, list(itertools.product((0, 3, 6, 13), range(2))))):
        shown = selection.shown_values(width, *secrets[0])
        for secret in secrets[1:]:
            yield f"width {width}, {secrets[0]} and {secret}", list(differing(shown, selection.shown_values(width, *secret))), []


# What is shown at width 1, by row.
def shown_rows(word, bit):
    return dict(zip(SELECTION_KINDS, selection.shown_values(1, word, bit), strict=True))


# How often two rows show each pair of values.
def row_counts(rows, first, second):
    return Counter(zip(rows[first], rows[second]))


# The pairs of rows whose counts differ.
def differing_rows(rows, others):
    return [(SELECTION_KINDS[i], SELECTION_KINDS[j]) for i, j in differing(rows.values(), others.values())]


# Worked by hand: rows 13 and 27 are the halves of z0 at c0 and at c, both with t1. Where c0 is c, for half of the choices, they are equal;
# for the others they are as often equal as not.
def hard_pair():
    for word, bit in SECRETS:
        found = row_counts(shown_rows(word, bit), 13, 27)
        yield f"rows 13 and 27 of word {word}, bit {bit}", found, {(0, 0): 192, (0, 1): 64, (1, 0): 64, (1, 1): 192}


def added(column, other):
    return bytes(map(operator.xor, column, other))


# The choices where a column is 0: as if that mask were not drawn, or the two that are added there were one.
def where_zero(rows, column):
    return {row: bytes(value for value, other in zip(values, column) if other == 0) for row, values in rows.items()}


# Wrong algorithms: what each shows, the rows that tell the bit, a pair of their values, and how often it stands there for bit 0 and for 1.
WRONG = {
    "row 27 without t1": (lambda rows: rows | {27: added(rows[27], rows[6])}, (1, 27), (1, 0), (128, 0)),
    "row 28 without t2": (lambda rows: rows | {28: added(rows[28], rows[7])}, (2, 28), (1, 0), (128, 0)),
    "row 29 without both": (lambda rows: rows | {29: added(rows[29], added(rows[6], rows[7]))}, (3, 29), (1, 0), (128, 0)),
    "no t1": (lambda rows: where_zero(rows, rows[6]), (1, 27), (1, 0), (64, 0)),
    "no t2": (lambda rows: where_zero(rows, rows[7]), (2, 28), (1, 0), (64, 0)),
    "one t for both": (lambda rows: where_zero(rows, added(rows[6], rows[7])), (3, 29), (1, 0), (64, 0)),
    "no b": (lambda rows: where_zero(rows, rows[8]), (11, 10), (0, 0), (128, 0)),
    "c1 + c2 before b": (lambda rows: rows | {9: added(rows[4], rows[5])}, (11, 9), (0, 0), (256, 0)),
}


# Each wrong algorithm leaks, and at no other pair of rows. z1 + z2 in the place of z2 tells the word, and its halves too.
def leaks():
    for word in range(4):
        for name, (wrong, pair, values, figures) in WRONG.items():
            shown = [wrong(shown_rows(word, bit)) for bit in range(2)]
            yield f"{name}, word {word}", differing_rows(*shown), [pair]
            yield f"{name}, word {word}, counts", tuple(row_counts(rows, *pair)[values] for rows in shown), figures
    shown = [rows | {3: added(rows[2], rows[3])} for rows in (shown_rows(0, 0), shown_rows(1, 0))]
    yield "z1 + z2", differing_rows(*shown), [(1, 3), (3, 12), (3, 19)]
    yield "z1 + z2, counts", [row_counts(rows, 1, 3)[0, 0] for rows in shown], [128, 0]


# t1 + t2 formed first, and shown in the place of rows 17 and 25, tells nothing.
def harmless():
    first, *others = (rows | dict.fromkeys((17, 25), added(rows[6], rows[7])) for rows in itertools.starmap(shown_rows, SECRETS))
    for secret, rows in zip(SECRETS[1:], others, strict=True):
        yield f"t1 + t2 in one go, {SECRETS[0]} and {secret}", differing_rows(first, rows), []


# The quick ones come first.
GROUPS = (figures, neighbours, refusals, drawn_answers, choices, counted_entries, every_answer, hard_pair, leaks, harmless, counts)
