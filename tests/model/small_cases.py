# The cases of split, join, key addition and the linear layer for the program test_small_calls, and what the model says of each.
# A case is a record of 64 bytes: byte 0 the call, from byte 4 its numbers as little-endian u32 in the order of the call's
# parameters, byte 40 the number of rows, from byte 41 the rows. The answers are one line a record.
import random
import struct

import model

SPLIT, JOIN, ADD_KEY, LINEAR_LAYER = range(4)
CALLS = (model.split, model.join, model.add_key, model.linear_layer)
# How many numbers of the input width each call takes.
INPUTS = {SPLIT: 3, JOIN: 3, ADD_KEY: 6, LINEAR_LAYER: 3}
TOP = 2**32 - 1
# Each comes into width 8 or 3 when it is cut to 8 or 16 bits, or is the largest of its type.
WIDE_NUMBERS = (256, 258, 2**16, TOP)
# No widths; some become one when cut to 8 or 16 bits, and 32 to 40 do as the distance of a shift.
NO_WIDTHS = (0, 9, 16, 31, 32, 33, 40, 257, 264, 2**16 + 3, TOP - 254, TOP)

chance = random.Random()


def below(width):
    return chance.randrange(2**width)


# A case that is accepted: the call, its numbers and its rows.
def accepted(call, n, m=None):
    inputs = [below(n) for _ in range(INPUTS[call])]
    if call != LINEAR_LAYER:
        return call, [n] + inputs, []
    m = m or chance.randint(1, n)
    return call, [n, m, below(m)] + inputs, [below(n) for _ in range(m)]


def with_number(case, place, number):
    call, numbers, rows = case
    return call, numbers[:place] + [number] + numbers[place + 1 :], rows


def with_row(case, place, row):
    call, numbers, rows = case
    return call, numbers, rows[:place] + [row] + rows[place + 1 :]


def with_row_count(case, count):
    call, numbers, rows = case
    return call, numbers, (rows + [0] * 16)[:count]


# The places of the numbers that have the input width.
def input_places(case):
    call, numbers, _ = case
    return range(len(numbers) - INPUTS[call], len(numbers))


def bench_sheet():
    yield LINEAR_LAYER, [3, 3, 1, 7, 1, 3], [3, 6, 5]
    yield JOIN, [3, 1, 5, 6], []


def input_bounds():
    for n in range(1, 9):
        for call in INPUTS:
            case = accepted(call, n)
            for place in input_places(case):
                yield with_number(case, place, 2**n - 1)
                yield with_number(case, place, 2**n)


# 2^8 is no byte, so at width 8 no row is too large.
def row_bounds():
    for n in range(1, 9):
        case = accepted(LINEAR_LAYER, n, n)
        for place in range(n):
            yield with_row(case, place, 2**n - 1)
            if n < 8:
                yield with_row(case, place, 2**n)


def constant_bounds():
    for n in range(1, 9):
        for m in range(1, n + 1):
            case = accepted(LINEAR_LAYER, n, m)
            yield with_number(case, 2, 2**m - 1)
            yield with_number(case, 2, 2**m)


def wide_numbers():
    for n in (3, 8):
        for call in INPUTS:
            case = accepted(call, n)
            for place in range(len(case[1])):
                for number in WIDE_NUMBERS:
                    yield with_number(case, place, number)


def no_widths():
    for width in NO_WIDTHS:
        for call in INPUTS:
            yield with_number(accepted(call, 8), 0, width)


# Those of a table are among them: a layer's m is at most n. With as many rows as the width says, as far as a record holds them, and with
# one.
def no_output_widths():
    for n in range(1, 9):
        for m in (*NO_WIDTHS, *range(n + 1, 9)):
            case = with_number(accepted(LINEAR_LAYER, n, n), 1, m)
            yield with_row_count(case, min(m, 16))
            yield with_row_count(case, 1)


def row_counts():
    for n in range(1, 9):
        for m in sorted({1, n}):
            for count in sorted({0, m - 1, m + 1, 9, 16}):
                yield with_row_count(accepted(LINEAR_LAYER, n, m), count)


# Every two or more of these faults together: 3, 4, 8, 9 by a row, 9 by the constant, 10 by a share.
def several_faults():
    faults = (
        lambda case: with_number(case, 0, chance.choice(NO_WIDTHS)),
        lambda case: with_number(case, 1, chance.choice(NO_WIDTHS)),
        lambda case: with_row_count(case, chance.choice((0, 2, 4, 9))),
        lambda case: with_row(case, 0, 255),
        lambda case: with_number(case, 2, chance.choice(WIDE_NUMBERS)),
        lambda case: with_number(case, chance.randint(3, 5), chance.choice(WIDE_NUMBERS)),
    )
    for chosen in range(2 ** len(faults)):
        if bin(chosen).count("1") >= 2:
            case = accepted(LINEAR_LAYER, 5, 3)
            for bit, fault in enumerate(faults):
                if chosen >> bit & 1:
                    case = fault(case)
            yield case
    for call in (SPLIT, JOIN, ADD_KEY):
        for n in (0, 9):
            for number in (2**n, TOP):
                case = with_number(accepted(call, 8), 0, n)
                yield with_number(case, chance.choice(input_places(case)), number)


def random_accepted():
    for turn in range(200):
        yield accepted(turn % 4, chance.randint(1, 8))


def random_damaged():
    for turn in range(200):
        case = accepted(turn % 4, chance.randint(1, 8))
        for _ in range(chance.randint(1, 2)):
            place = chance.randrange(len(case[1]))
            case = with_number(case, place, below(chance.randint(1, 32)))
        if case[0] == LINEAR_LAYER and chance.randrange(2):
            case = with_row_count(case, chance.randint(0, 16))
        yield case


def record(case):
    call, numbers, rows = case
    return struct.pack("<B3x9IB23s", call, *(numbers + [0] * 9)[:9], len(rows), bytes(rows))


def answer(case):
    call, numbers, rows = case
    if call == LINEAR_LAYER:
        return model.linear_layer(*numbers[:2], rows, *numbers[2:])
    return CALLS[call](*numbers)


KINDS = (
    bench_sheet,
    input_bounds,
    row_bounds,
    constant_bounds,
    wide_numbers,
    no_widths,
    no_output_widths,
    row_counts,
    several_faults,
    random_accepted,
    random_damaged,
)


# The same cases in every run.
def cases():
    chance.seed(1)
    for kind in KINDS:
        yield from kind()
