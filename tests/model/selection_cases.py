# The cases of choosing a half for the program test_selections, and what the model says of each.
# A case is a record of 48 bytes: the call's ten numbers as little-endian u32 in the order of its parameters, then the length of the log that
# is lent as a u16, and 1 where the log is printed whole, 0 where it is as a checksum. The log is lent filled, and the three bytes of the
# plain call too. The answers are one line a record: refusal, three results and count, the plain call's refusal and the three lent bytes
# after it, and the lent log after the call.
import itertools
import random
import struct
from collections import namedtuple

import selection
from call_records import FILLED_ENTRY, TOP, checksum
from selection import Case

# What each of the plain call's bytes is lent as, and the most entries that the program can lend.
FILLED_BYTE, LONGEST_LOG = 90, 64
WORDS, BITS, MASKS = ("z0", "z1", "z2"), ("c0", "c1", "c2", "b"), ("t1", "t2")
# Each comes into a width when it is cut to 8 or 16 bits, or is the largest of its type.
WIDE_NUMBERS = (256, 257, 65536, 65537, 131071, 2**24, 2**31, TOP - 65535, TOP - 255, TOP)
# No widths; some become one when they or twice them are cut to 8, 16 or 32 bits, and 32 to 40 do as the distance of a shift.
NO_WIDTHS = (0, 9, 16, 31, 32, 33, 40, 256, 257, 264, 65536, 65537, 65544, 2**31, 2**31 + 1, 2**31 + 8, TOP - 254, TOP)

# A call: its numbers, the length of its log, and whether that is printed whole.
Call = namedtuple("Call", "case log whole")

chance = random.Random()


def below(width):
    return chance.randrange(2**width)


# An accepted call with any numbers, and a log that just suffices.
def drawn(width):
    words, bits, masks = [below(2 * width) for _ in WORDS], [below(1) for _ in BITS], [below(width) for _ in MASKS]
    return Call(Case(width, *words, *bits[:3], *masks, bits[3]), selection.LOG_LENGTH, False)


def with_numbers(call, **numbers):
    return call._replace(case=call.case._replace(**numbers))


def roomier(call):
    return call._replace(log=chance.randint(selection.LOG_LENGTH + 1, LONGEST_LOG))


def whole(call):
    return call._replace(whole=True)


# A log that just suffices or is longer: what a refused call writes shows, and what any call writes behind the end.
def any_log(call):
    return call._replace(log=chance.randint(selection.LOG_LENGTH, LONGEST_LOG))


# The first number that is too large for a name at a width.
def limit(name, width):
    if name in BITS:
        return 2
    return 4**width if name in WORDS else 2**width


# Every choice of the bits at every width, with a log that just suffices and a longer one.
def every_width():
    for width in range(1, 9):
        for turn, bits in enumerate(itertools.product((0, 1), repeat=4)):
            call = with_numbers(drawn(width), **dict(zip(BITS, bits)))
            yield whole(call) if turn % 2 else call
            yield roomier(call) if turn % 2 else whole(roomier(call))


# Words of zeros, of ones and with a half of each; masks of zeros and of ones.
def extremes():
    for width in range(1, 9):
        ones = 2**width - 1
        for words in itertools.product((0, ones, ones << width, 4**width - 1), repeat=3):
            yield any_log(with_numbers(drawn(width), t1=chance.choice((0, ones)), t2=chance.choice((0, ones)), **dict(zip(WORDS, words))))


# A lone bit of one word or mask, the others 0: where it comes out is seen for each.
def lone_bits():
    for width in range(1, 9):
        for name in WORDS + MASKS:
            for bit in range(2 * width if name in WORDS else width):
                zeros = dict.fromkeys(WORDS + MASKS, 0)
                yield with_numbers(drawn(width), **{**zeros, name: 2**bit})


def drawn_calls():
    for width in range(1, 9):
        yield from (any_log(drawn(width)) for _ in range(24))


# Each number at its limit and one below, at every width. Where a mask's limit is met the log is printed whole.
def bounds():
    for width in range(1, 9):
        for name in WORDS + BITS + MASKS:
            for number in (limit(name, width) - 1, limit(name, width)):
                call = any_log(with_numbers(drawn(width), **{name: number}))
                yield whole(call) if name in MASKS else call


def wide_numbers():
    for width in (1, 3, 8):
        for name in WORDS + BITS + MASKS:
            yield from (any_log(with_numbers(drawn(width), **{name: number})) for number in WIDE_NUMBERS)


# All other numbers fit every width, or those of width 8.
def no_widths():
    for width in NO_WIDTHS:
        zeros = dict.fromkeys(WORDS + MASKS, 0)
        yield whole(with_numbers(drawn(1), width=width, **zeros))
        yield any_log(with_numbers(drawn(8), width=width))
    for width in range(1, 9):
        yield any_log(with_numbers(drawn(1), width=width))


def log_lengths():
    for width in range(1, 9):
        yield from (whole(drawn(width)._replace(log=length)) for length in (0, 1, 27, 28, 29))
    yield from (drawn(width)._replace(log=length) for width in (1, 8) for length in (2, 14, 26, 30, LONGEST_LOG))


# A width that is none, a number that is too large and a log that is too short, in every combination for each number; and any two numbers
# that are too large.
def several_faults():
    for name in WORDS + BITS + MASKS:
        for faults in itertools.product((False, True), repeat=3):
            call = any_log(drawn(4))
            call = with_numbers(call, width=chance.choice(NO_WIDTHS)) if faults[0] else call
            call = with_numbers(call, **{name: chance.choice((limit(name, 4), TOP))}) if faults[1] else call
            yield call._replace(log=chance.choice((0, 1, 27))) if faults[2] else call
    for names in itertools.combinations(WORDS + BITS + MASKS, 2):
        yield any_log(with_numbers(drawn(5), **{name: limit(name, 5) for name in names}))


def damaged():
    for _ in range(100):
        call, name = any_log(drawn(chance.randint(1, 8))), chance.choice(Case._fields)
        yield with_numbers(call, **{name: below(chance.randint(1, 32))})


# Every choice of masks for every word and bit of width 1. One in 61 is printed whole: this has no factor in common with the choices.
def every_choice():
    secrets = itertools.product(range(4), range(2))
    cases = (case for word, bit in secrets for case in selection.choices(1, word, bit))
    yield from (Call(case, selection.LOG_LENGTH, turn % 61 == 0) for turn, case in enumerate(cases))


def record(call):
    return struct.pack("<10IHB5x", *call.case, call.log, call.whole)


def answer(call):
    *numbers, log = selection.select(call.case, [FILLED_ENTRY] * call.log)
    refusal, lent = selection.plain_select(call.case, [FILLED_BYTE] * 3)
    return [*numbers, refusal, *lent, *(log if call.whole else [checksum(log)])]


KINDS = (
    every_width,
    no_widths,
    log_lengths,
    bounds,
    several_faults,
    wide_numbers,
    damaged,
    lone_bits,
    extremes,
    drawn_calls,
    every_choice,
)


# The same cases in every run.
def cases():
    chance.seed(1)
    for kind in KINDS:
        yield from kind()
