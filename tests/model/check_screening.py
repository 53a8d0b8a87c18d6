# Holds the model's screening to what is required of it (docs/REFERENCE.md). Each group yields a name, what the model says and what it
# should say.
import random

import screening
from runs import in_turn, placed, spreads

LENGTHS = (1, 2, 19, 20, 21, 22, 100, 510, 511, 512, 513, 632, 1024, 2000)


# An empty run, a source of one value, one of as few values as make no fault, and one of a value less.
def stuck_sources():
    yield "empty run", screening.report([]), None
    for length in LENGTHS:
        for value in (0, 1, 128, 255):
            yield f"{length} times {value}", screening.report([value] * length), 0 if length > 20 else None
        yield f"26 values, {length} bytes", screening.report(in_turn(26, length)), None
        yield f"25 values, {length} bytes", screening.report(in_turn(25, length)), 0 if length > 500 else None


# A shorter run is one window: 20 times and 21 times, wherever they stand.
def short_runs():
    for length in (21, 22, 100, 511):
        for start in sorted({0, (length - 21) // 2, length - 21}):
            for value, times in ((0, 20), (0, 21), (255, 20), (255, 21)):
                run = [1 + place % 254 for place in range(length)]
                got = screening.report(placed(run, value, range(start, start + times)))
                yield f"{times} times {value} from {start} on, of {length}", got, 0 if times > 20 else None


# 21 of a value within 512 bytes make these a faulty window, and none before it, if the run has them all. Within 513 they make no fault.
def windows():
    for start in (0, 1, 2, 255, 511, 512, 513, 1025, 1488):
        for ranges in spreads(start, 512):
            run, name = placed(in_turn(26, 2000), 200, *ranges), f"within 512 bytes from {start} on, {ranges}"
            yield name, screening.report(run), start
            yield name + ", the last window", screening.report(run[: start + 512]), start
            yield name + ", the last byte left out", screening.report(run[: start + 511]), None
            yield name + ", the first byte left out", screening.report(run[start + 1 :]), None
        for ranges in spreads(start, 513):
            run = placed(in_turn(26, start + 600), 200, *ranges)
            yield f"within 513 bytes from {start} on, {ranges}", screening.report(run), None


# A source that sticks at a place, for good or for a while: the first faulty window ends with the 21st of the value, or is the first of all.
def sticking_sources():
    for place in (0, 1, 490, 491, 492, 493, 700, 1500):
        for times in (20, 21, 22, 600):
            run = in_turn(26, place) + [200] * times + in_turn(26, 600)
            yield f"stuck from {place} on, {times} times", screening.report(run), max(0, place - 491) if times > 20 else None


# Of several faults the first counts, whatever their values.
def several_faults():
    for early, late in ((0, 30), (5, 35), (700, 730), (0, 600), (300, 1100)):
        for one, other in ((30, 200), (200, 30)):
            run = placed(placed(in_turn(26, 2000), one, *spreads(early, 512)[1]), other, *spreads(late, 512)[0])
            yield f"{one} from {early} on, {other} from {late} on", screening.report(run), early
    run = placed(in_turn(26, 2000), 200, range(300, 321), range(1300, 1400))
    yield "a value twice too often", screening.report(run), 0
    yield "the same, the first bytes left out", screening.report(run[301:]), 1300 + 20 - 511 - 301


# The report by the places of 21 of a value, of which the last stands less than 512 places behind the first: the first window that has them
# all ends with the last of them, or is the first of all.
def by_places(run):
    starts = []
    for value in set(run):
        places = [place for place, byte in enumerate(run) if byte == value]
        starts += [max(0, last - 511) for first, last in zip(places, places[20:]) if last - first < 512]
    return min(starts, default=None)


# Sources of 22 to 60 values, and sources that give a value too often: faulty at once, later or not at all.
def biased_sources():
    source = random.Random(14)
    for turn in range(60):
        length, values = source.choice((400, 512, 632, 1200)), source.randint(22, 60)
        few_values = [source.randrange(values) for _ in range(length)]
        one_value = [200 if source.random() < 0.03 else byte for byte in source.randbytes(length)]
        for run in (few_values, one_value):
            yield f"biased source, turn {turn}", screening.report(run), by_places(run)


# The quick ones come first.
GROUPS = (stuck_sources, short_runs, several_faults, sticking_sources, windows, biased_sources)
