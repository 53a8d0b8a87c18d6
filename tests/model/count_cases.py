# The cases of the count sheet for the program test_count_sheets, and what the model says of each.
# A case is a record of 304 bytes: the six numbers of a pair of probes as little-endian u32, then as u16 the lengths of the table, the
# scratch, the log and the sheet that are lent, and from byte 32 the table. All three buffers are lent filled, so that what a call clears,
# what it overwrites and what it leaves can all be seen. The answers are one line a record: the refusal, then the lent scratch and log
# after the call, whole where n is at most 1, and as a checksum each where it is larger, and the lent sheet, whole.
import random
import struct
from collections import namedtuple

import counts
import tables
from call_records import DIRTY_BYTE, FILLED_ENTRY, LONGEST_LOG, LONGEST_SCRATCH, TOP, checksum, with_entry
from count_sheets import P12_PAIR
from counts import ProbePair
from model import METHODS, log_length, scratch_length

# What the program fills the sheet with, and the most of it that it can lend.
FILLED_COUNT, LONGEST_SHEET = 4042322160, 100
# Each comes into the range of some number of a pair when it is cut to 8 or 16 bits, or is the largest of its type.
WIDE_NUMBERS = (256, 257, 258, 2**16, 2**16 + 1, 2**16 + 2, TOP)

# A call: its numbers, its table, and the lengths of scratch, log and sheet.
Call = namedtuple("Call", "pair table scratch log sheet")

chance = random.Random()


# A call with buffers that just suffice. Where n or m is above 3 no sheet is looked at, and a short one is lent.
def with_buffers(pair, table):
    method, n, m, *_ = pair
    width = max(n, m)
    return Call(pair, table, scratch_length(method, n), log_length(method, n), 4**width if width <= 3 else 5)


def accepted(method, n, m):
    positions = (chance.randrange(log_length(method, n)) for _ in range(2))
    return with_buffers(ProbePair(method, n, m, chance.randrange(2**n), *positions), tables.any_fit(chance, n, m))


def with_numbers(call, **numbers):
    return call._replace(pair=call.pair._replace(**numbers))


# The same call with buffers that are longer than it needs.
def roomier(call):
    scratch, log, sheet = (length + chance.randint(1, 5) for length in call[2:])
    return call._replace(scratch=scratch, log=log, sheet=sheet)


# The position of an entry with both output masks, at a = 0.
def masked_entry(method, n):
    return {2: 13, 3: 16, 5: 5 + 4 * 2**n + 3}[method]


# The pair of it and the answer, which stands last: it tells a secret where a table is not fit.
def told(method, n, m, secret):
    return ProbePair(method, n, m, secret, masked_entry(method, n), log_length(method, n) - 1)


# P12 of the bench sheet, the valve maker's table, and the pair that tells a secret of the tables 0, 0, 0, 1 and 0, 1, 2, 4, which are
# refused; all under method 5 too.
def bench_sheet():
    for secret in (0, 1):
        for p12 in (P12_PAIR._replace(secret=secret), ProbePair(5, 1, 1, secret, 0, 22)):
            yield from (with_buffers(p12, [1, 0]), roomier(with_buffers(p12, [1, 0])))
        yield from (with_buffers(told(method, 1, 2, secret), [0, 3]) for method in (2, 5))
    for secret in (0, 3):
        for m, table in ((1, [0, 1, 1, 0]), (1, [0, 0, 0, 1]), (3, [2, 0, 3, 1]), (3, [0, 1, 2, 4])):
            yield from (with_buffers(told(method, 2, m, secret), table) for method in (2, 5))


# The methods at every pair of widths: first and last positions, one twice, and others; two secrets of the same table. Of a position that
# shows a = 0, one count is all choices, 65536 at most. At m = 3, where a count takes longest, there are fewer pairs.
def every_width():
    for method in METHODS:
        for n in range(1, 4):
            for m in range(1, 4):
                call, last, at_0 = accepted(method, n, m), log_length(method, n) - 1, 5 if method == 5 else 8
                entry, other = masked_entry(method, n), call.pair.secret ^ chance.randrange(1, 2**n)
                between = [tuple(chance.randrange(1, last) for _ in range(2)) for _ in range(3)]
                pairs = [(0, last), (at_0, at_0), (last, last), *between, (last, 0), (7, 7), (entry, last)]
                for first, second in pairs[:3] if m == 3 else pairs:
                    yield roomier(with_numbers(call, first=first, second=second))
                yield from (with_numbers(call, first=entry, second=last, secret=secret) for secret in (call.pair.secret, other))


# Every position with another one, at n = 1 and n = 2, and of the first and the last turn at n = 3; under method 5, which has two passes,
# all of these.
def every_position():
    for method, n, m in ((2, 1, 1), (3, 1, 1), (5, 1, 2), (3, 1, 2), (2, 2, 1), (3, 2, 2), (5, 2, 2), (2, 3, 2), (3, 3, 1), (5, 3, 1)):
        call, length = accepted(method, n, m), log_length(method, n)
        for first in range(length) if n < 3 or method == 5 else (*range(17), *range(length - 11, length)):
            yield with_numbers(call, first=first, second=chance.randrange(length))


# All secrets of a table.
def every_secret():
    for method, n, m in ((3, 1, 3), (2, 2, 2), (3, 2, 1), (5, 2, 2), (2, 2, 3), (2, 3, 1), (5, 3, 2)):
        call = accepted(method, n, m)
        yield from (with_numbers(call, secret=secret) for secret in range(2**n))


# Numbers just inside and just outside, and wide ones.
def numbers():
    for method in METHODS:
        for n, m in ((1, 1), (2, 2), (3, 1)):
            call, length = roomier(accepted(method, n, m)), log_length(method, n)
            bounds = {
                "method": (0, 1, 4, 6, 261),
                "n": (0, n + 1, 9, 33),
                "m": (0, m, n + 1, 4, 8, 9, 33),
                "secret": (0, 2**n - 1, 2**n),
                "first": (0, length - 1, length, length + 1),
                "second": (0, length - 1, length, length + 1),
            }
            for name, values in bounds.items():
                wide = WIDE_NUMBERS if n == 2 else ()
                yield from (with_numbers(call, **{name: value}) for value in (*values, *wide))


# Lengths one too short or too long, entries that are too large, and tables that are not fit.
def faulty_tables():
    for n in range(1, 9):
        for m in sorted({1, n}):
            call = accepted(METHODS[n % 3], n, m)._replace(sheet=5)
            yield from (call._replace(table=table) for table in ([], call.table[:-1], call.table + [0]))
            place = chance.randrange(2**n)
            yield from (with_entry(call, place, entry) for entry in (2**m - 1 - call.table[place], min(2**m, 255), 255))
        call = accepted(METHODS[n % 3], n, 8)
        yield from (call._replace(table=kind(chance, n, 8)) for kind in (tables.full, *(tables.NOT_CLOSED if n > 1 else ())))


# Each buffer exactly long enough, one too short, empty, and longer; at n = 3 as long as the program can lend.
def buffers():
    for method in METHODS:
        for n, m in ((1, 2), (2, 3), (3, 2)):
            call = accepted(method, n, m)
            yield call._replace(scratch=2**n)
            for name in ("scratch", "log", "sheet"):
                needed = getattr(call, name)
                yield from (call._replace(**{name: length}) for length in (0, needed - 1, needed, needed + 1))
            yield from (call._replace(scratch=0, log=0, sheet=0), call._replace(sheet=2**n), call._replace(sheet=2 ** (n + m)))
        yield call._replace(scratch=LONGEST_SCRATCH, log=LONGEST_LOG, sheet=LONGEST_SHEET)


# n or m above 3, with buffers that suffice but for the sheet.
def too_wide():
    for n in range(1, 9):
        for m in range(1 if n > 3 else 4, 9):
            call = accepted(METHODS[(n + m) % 3], n, m)
            yield from (call, call._replace(sheet=0))
        yield from (call._replace(scratch=call.scratch - 1), call._replace(log=call.log - 1))
        yield from (with_numbers(call, secret=2**n), with_numbers(call, second=call.log), call._replace(table=call.table[1:]))


# A fault alone, which is one that is made twice, two faults together, and one beside empty buffers, also where n or m is above 3: the
# number that is checked first is returned.
def two_faults():
    faults = (
        lambda call: with_numbers(call, method=chance.choice((0, 1, 4, 6))),
        lambda call: with_numbers(call, n=chance.choice((0, 9))),
        lambda call: with_numbers(call, m=chance.choice((0, 9))),
        lambda call: call._replace(table=call.table + [0]),
        lambda call: with_entry(call, 0, 16),
        lambda call: with_entry(call, 1, (call.table[1] + 1) % 4),
        lambda call: with_numbers(call, secret=chance.choice((16, 256))),
        lambda call: call._replace(scratch=call.scratch - 1),
        lambda call: call._replace(log=call.log - 1),
        lambda call: with_numbers(call, **{chance.choice(("first", "second")): 154}),
        lambda call: call._replace(sheet=call.sheet - 1),
    )
    for widths in [(2, 2)], [(4, 2), (2, 4)]:
        fine = lambda: accepted(chance.choice(METHODS), *chance.choice(widths))
        for first, fault in enumerate(faults):
            yield from (other(fault(fine())) for other in faults[first:])
            yield fault(fine())._replace(scratch=0, log=0, sheet=0)


def record(call):
    return struct.pack("<6I4H272s", *call.pair, len(call.table), call.scratch, call.log, call.sheet, bytes(call.table))


def answer(call):
    lent = [DIRTY_BYTE] * call.scratch, [FILLED_ENTRY] * call.log, [FILLED_COUNT] * call.sheet
    refusal, scratch, log, sheet = counts.count_sheet(call.pair, call.table, *lent)
    if call.pair.n <= 1:
        return [refusal, *scratch, *log, *sheet]
    return [refusal, checksum(scratch), checksum(log), *sheet]


KINDS = (bench_sheet, every_width, every_position, every_secret, numbers, faulty_tables, buffers, too_wide, two_faults)


# The same cases in every run.
def cases():
    chance.seed(1)
    for kind in KINDS:
        yield from kind()
