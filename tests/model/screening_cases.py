# The runs for the program test_screening, and what the model says of each.
# A run is a record of 42 bytes and a pattern: the run's length as a little-endian u32 and the pattern's as a u16, then four changes of 9
# bytes each, and behind them the pattern. The run is the pattern, over and over. A change is the first place as a u32, then as u16 how far
# apart the places are and how many, and the value that is put there. The answers are one line a record: the report's start, or none.
import random
import struct
from collections import namedtuple

import screening
from runs import in_turn, placed, spreads

CHANGES = 4
# The most that the program can lend.
LONGEST_PATTERN, LONGEST_RUN = 5000, 70000
# A change is a range of places, and a value.
Run = namedtuple("Run", "length pattern changes")

FEW = in_turn(26, 26)
# The starts of windows near the end of the first 512 bytes, and of those behind them.
STARTS = (*range(4), *range(509, 516), *range(1021, 1028), 1535, 1536, 1537, 2047, 2048)

chance = random.Random()


def with_value(length, value, *ranges, pattern=FEW):
    return Run(length, pattern, [(places, value) for places in ranges])


def lengths():
    for length in (0, 1, 19, 20, 21, 22, 500, 501, 511, 512, 513, 632, 1024, 5000):
        for pattern in ([0], [255], in_turn(25, 25), FEW):
            yield Run(length, pattern, [])


# 20 and 21 of a value, among others.
def values():
    for value in sorted({*(2**bit for bit in range(8)), *(2**bit - 1 for bit in range(9)), 254}):
        pattern = [(value + 1 + other) % 256 for other in FEW]
        for times in (20, 21):
            yield with_value(632, value, range(570, 570 + times), pattern=pattern)


# 21 of a value within 512 bytes, in a run that goes on, in one that ends there and in one that ends before the last of them; and within
# 513 bytes.
def windows():
    for start in STARTS:
        yield from (with_value(start + 700, 200, *ranges) for ranges in spreads(start, 512))
        yield from (with_value(start + length, 200, *spreads(start, 512)[start % 3]) for length in (511, 512))
        yield with_value(start + 700, 200, *spreads(start, 513)[start % 3])


# A source that sticks, for good and for a while.
def sticking_sources():
    for place in (0, 1, 490, 491, 492, 1003, 1004, 3000):
        yield from (with_value(place + 700, 200, range(place, place + times)) for times in (20, 21, 22, 700))


# One of a value, or 20; and 20 more again and again, just before the last ones leave the window, as they leave it, and later.
def far_apart():
    for first in (1, 20):
        for later in (511, 512, 513, 700):
            ranges = [range(start, start + 20) for start in (later, 2 * later, 3 * later)]
            yield with_value(3 * later + 700, 200, range(first), *ranges)


# Two faults, of two values or of one, spread so that neither takes a place of the other.
def two_faults():
    for early, late in ((0, 30), (5, 35), (700, 730), (0, 600), (300, 1100), (508, 1020)):
        for one, other in ((30, 200), (200, 30), (200, 200)):
            ranges = spreads(early, 512)[1] + spreads(late, 512)[0]
            yield Run(late + 700, FEW, list(zip(ranges, (one, one, other, other))))


def drawn(length, values=256):
    return Run(length, [chance.randrange(values) for _ in range(length)], [])


# Sources of all values, of few, and of one too often.
def sources():
    yield from (drawn(length) for length in (511, 512, 513, 632, LONGEST_PATTERN))
    for values in range(26, 50, 2):
        yield drawn(900, values)
    for often in (0.02, 0.025, 0.03, 0.03, 0.035, 0.04):
        run = drawn(1200)
        yield run._replace(pattern=[byte if chance.random() > often else 9 for byte in run.pattern])


# A start of more than 16 bits.
def long_run():
    yield with_value(LONGEST_RUN, 200, *spreads(LONGEST_RUN - 512, 512)[0])


def record(run):
    changes = [(places.start, places.step, len(places), value) for places, value in run.changes]
    changes += [(0, 0, 0, 0)] * (CHANGES - len(changes))
    packed = [struct.pack("<IHHB", *change) for change in changes]
    return struct.pack("<IH", run.length, len(run.pattern)) + b"".join(packed) + bytes(run.pattern)


def answer(run):
    lent = [run.pattern[place % len(run.pattern)] for place in range(run.length)]
    for places, value in run.changes:
        lent = placed(lent, value, places)
    start = screening.report(bytes(lent))
    return ["none" if start is None else start]


# The same cases in every run.
def cases():
    chance.seed(1)
    for kind in (lengths, values, windows, sticking_sources, far_apart, two_faults, sources, long_run):
        yield from kind()
