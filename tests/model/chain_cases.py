# The cases of the chained call for the program test_chained_calls, and what the model says of each.
# A case is two records as call_records.py has them, the first call's and the second's, whose x0, r1 and r2 are not looked at: the first
# hands them on. The answers are one line a case: refusal, share and both counts, then both lent scratches and both lent logs after the
# call, whole where that call's n is at most 2, and as a checksum each where it is larger.
import itertools
from collections import namedtuple

import call_records
import chain
import logged_cases
from call_records import accepted, any_method, chance, roomier, with_buffers, with_numbers
from logged_cases import OTHER_FAULTS, P1, P2, P2_BY_5, P3, TABLE_FAULTS, VALVE
from model import METHODS, Case

# A chained call: two calls as in call_records.py.
Chain = namedtuple("Chain", "first second")


def accepted_chain(n, m, last, methods=None):
    methods = methods or (any_method(), any_method())
    return Chain(accepted(methods[0], n, m), accepted(methods[1], m, last))


# A call as the first or as the second of a chain. The other one is accepted, and fits it as far as its own widths are some.
def in_either(call):
    n, m = (width if 1 <= width <= 8 else chance.randint(1, 8) for width in call.case[1:3])
    if chance.choice((True, False)):
        return Chain(call, accepted(any_method(), m))
    return Chain(accepted(any_method(), chance.randint(1, 8), n), call)


# P1, P2 and P3 of the bench sheet, and P2 under method 5, each before a call that looks up what they find, 0 or 1. The valve maker's table
# before P2's and behind P1.
def bench_sheet():
    yield Chain(P1, with_buffers(Case(2, 1, 1, 1, 0, 1, 1, 1, 0, 0), [1, 0]))
    yield from (Chain(VALVE, P2), Chain(VALVE, P3), Chain(VALVE, P2_BY_5), Chain(P1, VALVE))
    case = Case(2, 2, 1, 2, 3, 0, 1, 0, 2, 0)
    for second in (case, case._replace(method=3, b=1), case._replace(method=5, r3=0)):
        yield from (Chain(first, with_buffers(second, [0, 1, 1, 0])) for first in (P2, P3, P2_BY_5))


# Each pairing of methods, with buffers that just suffice and longer ones.
def every_pairing():
    for methods in itertools.product(METHODS, repeat=2):
        for widths in ((1, 1, 1), (2, 1, 1), (2, 2, 1), (1, 2, 2), (1, 2, 3), (3, 2, 1), (8, 8, 8)):
            yield accepted_chain(*widths, methods)
            yield Chain(*map(roomier, accepted_chain(*widths, methods)))


# Every pair of widths in the first call, and in the second.
def every_width():
    for n in range(1, 9):
        for m in range(1, 9):
            other = chance.randint(1, 8)
            yield from (accepted_chain(n, m, other), accepted_chain(other, n, m))


# The first's m is one less or more than the second's n, or far from it.
def unequal_widths():
    for m in range(1, 9):
        for n in sorted({1, m - 1, m + 1, 8} - {0, m, 9}):
            yield Chain(accepted(any_method(), chance.randint(1, 8), m), roomier(accepted(any_method(), n)))


# The refusals of one call and what is just inside, in either call.
def one_faulty():
    calls = logged_cases
    for kind in calls.KINDS:
        if kind not in (calls.bench_sheet, calls.every_width, calls.named_tables, calls.small_tables, calls.unfit_tables, calls.two_faults):
            yield from map(in_either, kind())
    yield from map(in_either, list(calls.unfit_tables())[::3])


def in_first(fault):
    return lambda calls, fine: calls._replace(first=fault(calls.first, fine.first))


def in_second(fault):
    return lambda calls, fine: calls._replace(second=fault(calls.second, fine.second))


# The chain of calls that do not fit each other is made before the other faults.
def unequal(calls, fine):
    return calls


# Of the second's inputs r3 alone is its own.
def large_r3(call, fine):
    return with_numbers(call, r3=2**fine.case.n)


# A fault alone, which is one that is made twice, and two faults together, of one call or of both: the number that is checked first is
# returned.
def two_faults():
    faults = [
        *map(in_first, TABLE_FAULTS),
        *map(in_second, TABLE_FAULTS),
        unequal,
        *map(in_first, OTHER_FAULTS),
        *map(in_second, (large_r3, *OTHER_FAULTS[1:])),
    ]
    for at, fault in enumerate(faults):
        for other in faults[at:]:
            n = chance.choice((3, 5)) if unequal in (fault, other) else 4
            fine = Chain(accepted(any_method(), chance.choice((3, 5)), 4), accepted(any_method(), n, chance.choice((2, 6))))
            yield other(fault(fine, fine), fine)


def record(calls):
    return b"".join(map(call_records.record, calls))


def answer(calls):
    method, n, m, _, _, _, *masks = calls.second.case
    scratches, logs = zip(*map(call_records.lent, calls))
    tables = [call.table for call in calls]
    *numbers, scratch, second_scratch, log, second_log = chain.chained_call(
        calls.first.case, chain.Second(method, n, m, *masks), tables, scratches, logs
    )
    left = (calls.first, scratch), (calls.second, second_scratch), (calls.first, log), (calls.second, second_log)
    return [*numbers, *(value for call, buffer in left for value in call_records.printed(call, buffer))]


KINDS = (bench_sheet, every_pairing, every_width, unequal_widths, one_faulty, two_faults)


# The same cases in every run.
def cases():
    chance.seed(1)
    for kind in KINDS:
        yield from kind()
