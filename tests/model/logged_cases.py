# The cases of the logged call for the program test_logged_calls, and what the model says of each.
# A case is a record as call_records.py has it. The answers are one line a record: refusal, share and count, then the lent scratch and log
# after the call.
import model
import tables
from call_records import INPUTS, LONGEST_LOG, LONGEST_SCRATCH, OUTPUTS, TOP
from call_records import accepted, any_method, chance, dirty, dirty_at, lent, method_at, on_table, printed, record, roomier
from call_records import with_buffers, with_entry, with_numbers

# Each comes into a width when it is cut to 8 or 16 bits, or is the largest of its type.
WIDE_NUMBERS = (256, 258, 2**16, TOP)

# Those of the bench sheet that are accepted.
P1 = with_buffers(model.Case(2, 1, 1, 0, 1, 0, 0, 1, 1, 0), [1, 0])
P2 = with_buffers(model.Case(2, 2, 2, 0, 1, 2, 3, 0, 2, 0), [2, 0, 3, 1])
P3 = with_buffers(model.Case(3, 2, 2, 0, 1, 2, 3, 0, 2, 1), [2, 0, 3, 1])
# P2's secret and masks under method 5, which has no r3.
P2_BY_5 = with_buffers(model.Case(5, 2, 2, 0, 1, 2, 3, 0, 0, 0), [2, 0, 3, 1])
# The valve maker's table, which is fit without being balanced.
VALVE = with_buffers(model.Case(2, 1, 2, 0, 1, 0, 3, 1, 1, 0), [0, 3])


def bench_sheet():
    p6 = with_numbers(P2, m=1, s1=1)
    yield from (P1, P2, P3)
    yield from map(roomier, (P1, P2, P3))
    yield from (with_numbers(P2, x0=4), with_numbers(P2, x0=3))
    yield with_numbers(P2, m=3)
    yield from (p6._replace(table=[0, 0, 0, 1]), p6._replace(table=[0, 1, 1, 0]))
    yield from (P2._replace(scratch=3), P2._replace(scratch=4))
    yield from (P2._replace(log=33), P2._replace(log=34))
    yield from (with_numbers(P2, b=1), with_numbers(P3, b=2))
    yield with_numbers(P2, method=4, n=9)
    yield from (dirty_at(P2, 0), dirty_at(P2, 3), dirty_at(P2._replace(scratch=5), 4))
    yield from (dirty(P2._replace(scratch=3)), dirty_at(P2._replace(log=33), 0))


# The refusals that go by the method, beside P2 under method 5.
def calls_by_5():
    yield from (P2_BY_5, roomier(P2_BY_5), P2_BY_5._replace(scratch=4), P2_BY_5._replace(scratch=7), dirty(P2_BY_5._replace(scratch=7)))
    yield from (dirty_at(P2_BY_5, place) for place in range(8))
    yield from (dirty_at(P2_BY_5._replace(scratch=9), 8), dirty_at(P2_BY_5._replace(log=38), 7), P2_BY_5._replace(log=38))
    yield from (with_numbers(P2_BY_5, r3=r3, b=b) for r3 in (1, 2, 3, 4, TOP) for b in (0, 1))
    yield from (with_numbers(P2_BY_5, b=b) for b in (1, 2, 256, TOP))
    yield from (with_numbers(P2_BY_5, method=method) for method in (2, 4, 6, 5 + 256, 5 + 2**16))
    yield P2_BY_5._replace(table=[0, 0, 0, 1])


# The methods at every pair of widths, one of them on a table of as many values as there can be, the others on any fit one and with longer
# buffers.
def every_width():
    for n in range(1, 9):
        for m in range(1, 9):
            first, *others = chance.sample(model.METHODS, len(model.METHODS))
            yield on_table(first, n, m, tables.full(chance, n, m))
            for method in others:
                yield roomier(on_table(method, n, m, tables.fit(chance, n, m, chance.randint(0, min(n, m)))))


def no_methods_and_widths():
    for method in (0, 1, 4, 6, 258, 261, 2**16 + 3, 2**16 + 5, TOP):
        yield dirty(with_numbers(accepted(5, 2), method=method))
    for width in (0, 9, 33, 40, 257, TOP):
        yield dirty(with_numbers(accepted(any_method(), 3), n=width))
        yield dirty(with_numbers(accepted(any_method(), 3), m=width))
    for n in range(1, 9):
        yield dirty(with_numbers(accepted(method_at(n), n), m=9))


def table_lengths():
    for n in range(1, 9):
        call = dirty(roomier(accepted(method_at(n), n)))
        yield call._replace(table=call.table[:-1])
        yield call._replace(table=call.table + [0])
    yield call._replace(table=[])


# 2^8 is no byte, so at m = 8 no entry is too large. Where all of them are, the table is still fit.
def table_entries():
    for n in range(1, 9):
        for m in sorted({1, n, min(n + 1, 8)}):
            call = dirty(roomier(accepted(method_at(n), n, m)))
            place = chance.randrange(2**n)
            yield with_entry(call, place, 2**m - 1 - call.table[place])
            if m < 8:
                yield with_entry(call, place, 2**m)
        call = dirty(accepted(method_at(n), n, chance.randint(1, 7)))
        yield call._replace(table=[entry + 2**call.case.m for entry in call.table])


# The tables that the requirements name, and others of their widths: without a 0, constant, with an entry that is too large. The last is
# not closed, though with any value its first and its last entry give a value.
def named_tables():
    yield from (VALVE, roomier(VALVE), with_numbers(VALVE, method=3, b=1), with_numbers(VALVE, m=1, s1=1))
    yield with_buffers(VALVE.case._replace(method=5, r3=0), VALVE.table)
    for m, table in ((2, [1, 2]), (1, [0, 0]), (1, [1, 1]), (8, [255, 0]), (8, [7, 7])):
        yield on_table(any_method(), 1, m, table)
    for m, table in ((3, [0, 1, 2, 4]), (3, [1, 2, 4, 7]), (3, [0, 7, 7, 0]), (2, [0, 1, 2, 4]), (3, [5, 5, 5, 5]), (4, [0, 1, 2, 4])):
        yield on_table(any_method(), 2, m, table)
    yield on_table(any_method(), 3, 4, [0, 2, 3, 4, 5, 8, 9, 1])


# All tables of the smallest widths, and some of the next.
def small_tables():
    for n, m in ((1, 1), (1, 2), (2, 1)):
        yield from (on_table(any_method(), n, m, table) for table in tables.every(n, m))
    for m in (2, 3):
        yield from (on_table(any_method(), 2, m, table) for table in chance.sample(list(tables.every(2, m)), 12))


def unfit_tables():
    for n in range(2, 9):
        kinds = [(kind, chance.randint(3, 8)) for kind in tables.NOT_EVEN + tables.NOT_CLOSED]
        for kind, m in kinds + [(chance.choice(tables.NOT_EVEN), m) for m in (1, 2)]:
            yield dirty(roomier(on_table(any_method(), n, m, kind(chance, n, m))))


def mask_bounds():
    for method, n, m in ((3, 1, 1), (5, 1, 1), (2, 1, 2), (3, 2, 8), (5, 2, 8), (2, 5, 3), (3, 8, 5), (5, 8, 5)):
        call = roomier(accepted(method, n, m))
        for name in INPUTS + OUTPUTS:
            width = n if name in INPUTS else m
            yield with_numbers(call, **{name: 2**width - 1})
            yield dirty(with_numbers(call, **{name: 2**width}))
        for b in (0, 1, 2):
            yield with_numbers(call, b=b)


# Under method 5 r3 and b are 0: where they are not, beside each fault.
def not_drawn():
    for numbers in (dict(r3=1), dict(b=1)):
        for fault in TABLE_FAULTS + OTHER_FAULTS:
            fine = accepted(5, *chance.choice(((3, 2), (2, 3))))
            yield fault(with_numbers(fine, **numbers), fine)


def wide_numbers():
    by_any = [(any_method(), name) for name in INPUTS + OUTPUTS + ("b",)]
    for method, name in (*by_any, (5, "r3"), (5, "b")):
        for number in WIDE_NUMBERS:
            yield dirty(with_numbers(accepted(method, chance.choice((3, 8))), **{name: number}))


def buffer_lengths():
    for n in range(1, 9):
        for method in model.METHODS:
            call = accepted(method, n)
            yield call._replace(scratch=call.scratch - 1)
            yield call._replace(log=call.log - 1)
    yield from (call._replace(scratch=0), call._replace(log=0), call._replace(scratch=0, log=0))
    yield call._replace(scratch=LONGEST_SCRATCH, log=LONGEST_LOG)


# One dirty byte at either end of those that must be clean, anywhere among them and just behind them, and under method 5 where its halves
# meet; all of them dirty; and dirty scratch where it or the log is short.
def dirty_scratch():
    for n in range(1, 9):
        for method in model.METHODS:
            call = accepted(method, n)
            needed = call.scratch
            yield from (dirty_at(call, 0), dirty_at(call, needed - 1), dirty_at(call, chance.randrange(needed)), dirty(call))
            yield from (dirty_at(call, place) for place in range(2**n - 1, 2**n + 1) if method == 5)
            yield dirty_at(call._replace(scratch=needed + 1), needed)
            yield dirty(call._replace(scratch=needed - 1))
            yield dirty(call._replace(log=call.log - 1))


# The faults of a call, in the order of the checks, first those of its table. Each takes the call, which may have another, and the call
# before any.
TABLE_FAULTS = (
    lambda call, fine: with_numbers(call, method=chance.choice((1, 4, 6))),
    lambda call, fine: with_numbers(call, n=chance.choice((0, 9))),
    lambda call, fine: with_numbers(call, m=chance.choice((0, 9))),
    lambda call, fine: call._replace(table=call.table + [0]),
    lambda call, fine: with_entry(call, 0, 2**fine.case.m),
    lambda call, fine: with_entry(call, 1, (call.table[1] + 1) % 2**fine.case.m),
)
OTHER_FAULTS = (
    lambda call, fine: with_numbers(call, **{chance.choice(INPUTS): 2**fine.case.n}),
    lambda call, fine: with_numbers(call, **{chance.choice(OUTPUTS): 2**fine.case.m}),
    lambda call, fine: with_numbers(call, b=2),
    lambda call, fine: call._replace(scratch=fine.scratch - 1),
    lambda call, fine: dirty_at(call, chance.randrange(fine.scratch - 1)),
    lambda call, fine: call._replace(log=call.log - 1),
)


# A fault alone, which is one that is made twice, and two faults together: the number that is checked first is returned.
def two_faults():
    faults = TABLE_FAULTS + OTHER_FAULTS
    for first, fault in enumerate(faults):
        for other in faults[first:]:
            fine = accepted(any_method(), *chance.choice(((3, 2), (2, 3))))
            yield other(fault(fine, fine), fine)


def answer(call):
    refusal, share, count, scratch, log = model.logged_call(call.case, call.table, *lent(call))
    return [refusal, share, count, *printed(call, scratch), *printed(call, log)]


KINDS = (
    bench_sheet,
    calls_by_5,
    every_width,
    no_methods_and_widths,
    table_lengths,
    table_entries,
    named_tables,
    small_tables,
    unfit_tables,
    mask_bounds,
    not_drawn,
    wide_numbers,
    buffer_lengths,
    dirty_scratch,
    two_faults,
)


# The same cases in every run.
def cases():
    chance.seed(1)
    for kind in KINDS:
        yield from kind()
