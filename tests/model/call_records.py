# Logged calls as the test programs' records have them, alone and in chains: how cases are made, packed, lent and printed.
# A record is 320 bytes: the call's ten numbers as little-endian u32 in the order of its parameters, then as u16 the lengths of the table,
# the scratch and the log that are lent, and the places from which and up to which, not including it, the scratch is lent dirty, and from
# byte 50 the table. The rest of the scratch is lent as zeros and the log filled, so that what a call writes and what it leaves can both be
# seen. A buffer is printed whole where n is at most 2, and as a checksum where it is larger.
import random
import struct
from collections import namedtuple

import model
import tables

TOP = 2**32 - 1
# What the program writes into dirty scratch, what it fills the log with, and the most that it can lend.
DIRTY_BYTE, FILLED_ENTRY = 165, 2779096485
LONGEST_SCRATCH, LONGEST_LOG = 600, 2400
INPUTS = ("x0", "r1", "r2", "r3")
OUTPUTS = ("s1", "s2")

# A call: its numbers, its table, the lengths of scratch and log, and the range of the scratch's dirty places, of which those below its
# length count.
Call = namedtuple("Call", "case table scratch log dirty")

chance = random.Random()


def below(width):
    return chance.randrange(2**width)


def any_method():
    return chance.choice(model.METHODS)


# One method after the other as n grows.
def method_at(n):
    return model.METHODS[n % len(model.METHODS)]


# A call with buffers that just suffice. The scratch is clean as far as the call looks at it, and dirty behind.
def with_buffers(case, table):
    needed = model.scratch_length(case.method, case.n)
    return Call(case, table, needed, model.log_length(case.method, case.n), range(needed, LONGEST_SCRATCH))


# A call on a table, with masks in their widths.
def on_table(method, n, m, table):
    x0, r1, r2 = (below(n) for _ in range(3))
    r3, b = map(chance.choice, model.drawn(method, n))
    return with_buffers(model.Case(method, n, m, x0, r1, r2, below(m), below(m), r3, b), table)


def accepted(method, n, m=None):
    m = m or chance.randint(1, 8)
    return on_table(method, n, m, tables.any_fit(chance, n, m))


def with_numbers(call, **numbers):
    return call._replace(case=call.case._replace(**numbers))


def with_entry(call, place, entry):
    table = list(call.table)
    table[place] = entry
    return call._replace(table=table)


# The same call with buffers that are longer than it needs.
def roomier(call):
    return call._replace(scratch=call.scratch + chance.randint(1, 9), log=call.log + chance.randint(1, 9))


def dirty_at(call, place):
    return call._replace(dirty=range(place, place + 1))


# All of the scratch dirty: where something that is checked before it is at fault, a write of zeros shows too.
def dirty(call):
    return call._replace(dirty=range(LONGEST_SCRATCH))


def record(call):
    lengths = len(call.table), call.scratch, call.log
    return struct.pack("<10I5H270s", *call.case, *lengths, call.dirty.start, call.dirty.stop, bytes(call.table))


# It depends on every value and on their order. The modulus is the largest prime below 2^32: by one below 2^16 a kind
# could stand for a value.
def checksum(values):
    total = 1
    for value in values:
        total = (total * 31 + value) % 4294967291
    return total


# The scratch and the log that are lent.
def lent(call):
    return [DIRTY_BYTE if place in call.dirty else 0 for place in range(call.scratch)], [FILLED_ENTRY] * call.log


# A buffer of a call as it is printed.
def printed(call, buffer):
    return buffer if call.case.n <= 2 else [checksum(buffer)]
