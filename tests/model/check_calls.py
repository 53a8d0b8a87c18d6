# Holds the model's logged and plain call, its clearing and its entries to what is required of them (docs/REFERENCE.md): the bench sheet,
# the refusals with their order and what is just inside, the widths. Each group yields a name, what the model says and what it should say.
import itertools

import model
from check_methods import P2, P2_BY_5, P3, TOP, lent_log, log_length, old_log, says_the_same, scratch_length
from document import KINDS, LENGTHS, TABLE_A
from model import Case

P6 = P2._replace(m=1, s1=1, s2=0)


# The refusal, the answer and the scratch of a logged call, with buffers that suffice at n = 2 where none are given. Bench calls begin
# with zeros.
def outcome(case, table, scratch=(0, 0, 0, 0), log_entries=46):
    refusal, answer, _, scratch, _ = model.logged_call(case, table, scratch, [9] * log_entries)
    return refusal, answer, scratch


def refusal_of(case, table, **buffers):
    return outcome(case, table, **buffers)[0]


def bench_sheet():
    p1 = Case(2, 1, 1, 0, 1, 0, 0, 1, 1, 0)
    yield "P1", outcome(p1, [1, 0], scratch=[0, 0])[:2], (0, 1)
    yield "P2", outcome(P2, TABLE_A), (0, 2, [3, 1, 2, 0])
    yield "P3", outcome(P3, TABLE_A), (0, 2, [0, 0, 1, 0])
    yield "P4 refused", refusal_of(P2._replace(x0=4), TABLE_A), 10
    yield "P4 accepted", refusal_of(P2._replace(x0=3), TABLE_A), 0
    yield "P5", outcome(P2._replace(m=3), TABLE_A), (0, 2, [3, 1, 2, 0])
    yield "P6 refused", refusal_of(P6, [0, 0, 0, 1]), 7
    for secret in range(4):
        accepted = {refusal_of(case, [0, 1, 1, 0]) for case in model.choices(2, 2, 1, secret)}
        yield f"P6 accepted at {secret}", accepted, {0}
    yield "P7 refused", refusal_of(P2, TABLE_A, scratch=[0] * 3), 13
    yield "P7 accepted", refusal_of(P2, TABLE_A, scratch=[0] * 4), 0
    yield "P8 refused", refusal_of(P2, TABLE_A, log_entries=33), 14
    yield "P8 accepted", refusal_of(P2, TABLE_A, log_entries=34), 0
    yield "P9 method 2", refusal_of(P2._replace(b=1), TABLE_A), 12
    yield "P9 method 3", refusal_of(P3._replace(b=2), TABLE_A), 12
    yield "P10", refusal_of(P2._replace(method=4, n=9), TABLE_A), 2
    yield "P10 by 6", refusal_of(P2._replace(method=6, n=9), TABLE_A), 2
    for secret in (0, 1):
        each_eight = {(0, 0): 8, (0, 1): 8, (1, 0): 8, (1, 1): 8}
        yield f"P12 at {secret}", model.pair_counts([1, 0], 2, 1, 1, secret, 0, 21), each_eight


# P2 on scratch that is not clean, beside P7 and P8.
def dirty_bench_calls():
    yield "P2, byte 0 dirty", outcome(P2, TABLE_A, scratch=[1, 0, 0, 0]), (19, 0, [1, 0, 0, 0])
    yield "P2, byte 3 dirty", outcome(P2, TABLE_A, scratch=[0, 0, 0, 1]), (19, 0, [0, 0, 0, 1])
    yield "P2, byte 4 dirty", outcome(P2, TABLE_A, scratch=[0, 0, 0, 0, 1]), (0, 2, [3, 1, 2, 0, 1])
    yield "P7 refused, dirty", outcome(P2, TABLE_A, scratch=[1, 1, 1]), (13, 0, [1, 1, 1])
    yield "P8 refused, dirty", outcome(P2, TABLE_A, scratch=[1, 0, 0, 0], log_entries=33), (19, 0, [1, 0, 0, 0])
    _, _, left = outcome(P2, TABLE_A)
    yield "P2 again", outcome(P2, TABLE_A, scratch=left), (19, 0, left)
    yield "P2 again, cleared", outcome(P2, TABLE_A, scratch=model.clear(left)), (0, 2, left)


# P2's table, secret and masks under method 5: what it leaves, and beside it the refusals that go by the method.
def calls_by_5():
    zeros, left = [0] * 8, [3, 1, 2, 0, 2, 0, 3, 1]
    yield "P2 by 5", outcome(P2_BY_5, TABLE_A, scratch=zeros), (0, 2, left)
    yield "P2 by 5, more scratch", outcome(P2_BY_5, TABLE_A, scratch=[*zeros, 1, 255]), (0, 2, [*left, 1, 255])
    yield "scratch of 7", refusal_of(P2_BY_5, TABLE_A, scratch=zeros[1:]), 13
    yield "scratch of 4", refusal_of(P2_BY_5, TABLE_A, scratch=zeros[4:]), 13
    yield "scratch of 7, dirty", outcome(P2_BY_5, TABLE_A, scratch=[1] * 7), (13, 0, [1] * 7)
    for place in range(8):
        dirty = [*zeros[:place], 1, *zeros[place + 1 :]]
        yield f"byte {place} dirty", outcome(P2_BY_5, TABLE_A, scratch=dirty), (19, 0, dirty)
        yield f"byte {place} dirty, short log", refusal_of(P2_BY_5, TABLE_A, scratch=dirty, log_entries=38), 19
    yield "log of 38", refusal_of(P2_BY_5, TABLE_A, scratch=zeros, log_entries=38), 14
    yield "log of 39", refusal_of(P2_BY_5, TABLE_A, scratch=zeros, log_entries=39), 0
    for r3, refusal in ((1, 12), (2, 12), (3, 12), (4, 10), (255, 10), (256, 10), (TOP, 10)):
        yield f"r3 = {r3}", refusal_of(P2_BY_5._replace(r3=r3), TABLE_A, scratch=zeros), refusal
        yield f"r3 = {r3}, b = 1", refusal_of(P2_BY_5._replace(r3=r3, b=1), TABLE_A, scratch=zeros), refusal
        yield f"r3 = {r3}, s1 = 4", refusal_of(P2_BY_5._replace(r3=r3, s1=4), TABLE_A, scratch=zeros), 10 if refusal == 10 else 11
        yield f"r3 = {r3}, no scratch", refusal_of(P2_BY_5._replace(r3=r3), TABLE_A, scratch=[]), refusal
    for b in (1, 2, 256, TOP):
        yield f"b = {b}", refusal_of(P2_BY_5._replace(b=b), TABLE_A, scratch=zeros), 12
    for method in (4, 6, 5 + 256, 5 + 2**16, TOP):
        yield f"method {method}", refusal_of(P2_BY_5._replace(method=method), TABLE_A, scratch=zeros), 2
    for secret in (0, 1):
        each_four = {(0, 0): 4, (0, 1): 4, (1, 0): 4, (1, 1): 4}
        yield f"P12 by 5 at {secret}", model.pair_counts([1, 0], 5, 1, 1, secret, 0, 22), each_four


def lengths():
    for method, by_width in LENGTHS.items():
        for n, figure in by_width.items():
            case, table = Case(method, n, n, 0, 0, 0, 0, 0, 0, 0), list(range(2**n))
            zeros = [0] * scratch_length(method, n)
            name = f"length of method {method} at n = {n}"
            yield name, model.log_length(method, n), figure
            yield name + ", logged", model.logged_call(case, table, [0] * 512, [0] * 2314)[2], figure
            yield name + ", just enough", refusal_of(case, table, scratch=zeros, log_entries=figure), 0
            yield name + ", one less", refusal_of(case, table, scratch=zeros, log_entries=figure - 1), 14
            yield name + ", scratch", model.scratch_length(method, n), len(zeros)
            yield name + ", a byte less", refusal_of(case, table, scratch=zeros[1:], log_entries=figure), 13


# Worked by hand: kinds and values up to the largest that are asked for, 29 and 65535, and the largest entry that there can be.
PACKED = [
    (0, 0, 0),
    (1, 0, 65536),
    (1, 1, 65537),
    (10, 0, 655360),
    (15, 255, 983295),
    (18, 256, 1179904),
    (29, 65535, 1966079),
    (65535, 65535, 4294967295),
]


# Today's values are below 256. That an entry holds any of 16 bits shows here alone.
def packing():
    for kind, value, entry in PACKED:
        yield f"entry of {kind} and {value}", model.packed(kind, value), entry
        yield f"kind and value of {entry}", (model.kind_of(entry), model.value_of(entry)), (kind, value)
    for kind in range(1, 30):
        for value in (0, 1, 127, 128, 255, 256, 257, 32767, 32768, 65279, 65280, 65535):
            entry = model.packed(kind, value)
            yield f"{kind} and {value} taken apart", (model.kind_of(entry), model.value_of(entry)), (kind, value)


# A call that is accepted: its numbers, its table, its scratch with an end that is not looked at, and the length of its log.
def fine_call(method, n, m, table):
    inputs, outputs = {name: 2**n - 1 for name in ("x0", "r1", "r2")}, {name: 2**m - 1 for name in ("s1", "s2")}
    numbers = dict(method=method, n=n, m=m, **inputs, **outputs, r3=0 if method == 5 else 2**n - 1, b=0)
    return {**numbers, "table": table, "scratch": [0] * scratch_length(method, n) + [7], "log": log_length(3, n)}


# Faults of it, in the order of the checks: the refusal, what is faulty and what stands there.
def faults(method, n, m, table):
    unclosed = [[0, 1, 2, 4] * 2 ** (n - 2)] if m > 2 else []
    single_one, single_zero = [0] * (2**n - 1) + [1], [1] * (2**n - 1) + [0]
    return [
        *((2, "method", value) for value in (0, 1, 4, 6, 258, 261, 2**32 - 1)),
        *((3, "n", value) for value in (0, 9, 256 + n)),
        *((4, "m", value) for value in (0, 9, 256 + m)),
        *((5, "table", value) for value in ([], table[:-1], [*table, 1], [*table, 2**m])),
        *((6, "table", value) for value in ([2**m, *table[1:]], [*table[:-1], 2**m], [2**m] * 2**n, [*single_one[:-1], 255])),
        *((7, "table", value) for value in (single_one, single_zero, *unclosed)),
        *((10, name, value) for name in ("x0", "r1", "r2", "r3") for value in (2**n, 256)),
        *((11, name, value) for name in ("s1", "s2") for value in (2**m, 256)),
        *((12, "b", value) for value in ((2, 256) if method == 3 else (1, 2, 256))),
        *((12, "r3", value) for value in ((1, 2**n - 1) if method == 5 else ())),
        *scratch_faults(method, n),
        *((14, "log", value) for value in (0, log_length(method, n) - 1)),
    ]


# Of the bytes that must be clean, also those at the end of the first half are dirty, and those at the beginning of the second.
def scratch_faults(method, n):
    rest = [0] * (scratch_length(method, n) - 1)
    half = len(rest) // 2
    return [
        *((13, "scratch", value) for value in ([], rest, [1, *rest[1:]], [9 for _ in rest], [0] * half, [0] * (half + 1))),
        *((19, "scratch", [value, *rest]) for value in (1, 2, 128, 255)),
        *((19, "scratch", [*rest, value, 0]) for value in (1, 2, 128, 255)),
        *((19, "scratch", [*rest[:place], 1, *rest[place:]]) for place in (half, half + 1)),
        *((19, "scratch", value) for value in ([0, 1, *rest[1:]], [*rest[1:], 255, 0], [128, *rest[1:], 128])),
        *((19, "scratch", value) for value in ([9, *(9 for _ in rest)], list(range(1, len(rest) + 4)))),
    ]


# With m below n and above it.
TRIED = (2, 1, [0, 1, 1, 0]), (2, 3, [7, 4, 2, 1])


# What the calls say of such a call: the first refusal, all else 0, and nothing written.
def refused(call, refusal):
    *numbers, table, scratch, log_entries = call.values()
    case, log = Case(*numbers), lent_log(log_entries)
    yield (call, "logged"), model.logged_call(case, table, scratch, log), (refusal, 0, 0, scratch, log)
    if refusal != 14:
        yield (call, "plain"), model.plain_call(case, table, scratch), (refusal, 0, 0, scratch)
        yield (call, "exported"), model.exported_call(case, table, scratch), (refusal * 256, scratch)


# Each fault, and any two in different places: the one that stands first in the order is returned, which is not always the smaller number.
def refusals():
    for method, tried in itertools.product(KINDS, TRIED):
        fine, known = fine_call(method, *tried), faults(method, *tried)
        for at, (refusal, place, value) in enumerate(known):
            yield from refused({**fine, place: value}, refusal)
            for _, second, value2 in known[at:]:
                if second != place:
                    yield from refused({**fine, place: value, second: value2}, refusal)


# What stands just inside: the call is still accepted.
def neighbours():
    for method in KINDS:
        needed = [0] * scratch_length(method, 2)
        inside = [("scratch", needed + end) for end in ([], [1], [255], [0, 1], [255, 255, 255])]
        inside += [("log", value) for value in (log_length(method, 2), 46, 47)]
        for place, value in inside:
            *numbers, table, scratch, log_entries = {**fine_call(method, *TRIED[0]), place: value}.values()
            case, name = Case(*numbers), f"{place} {value}, method {method}"
            yield name + ", logged", model.logged_call(case, table, scratch, [9] * log_entries)[:3], (0, 0, LENGTHS[method][2])
            yield name + ", plain", model.plain_call(case, table, scratch)[:3], (0, 0, 0)
            yield name + ", exported", model.exported_call(case, table, scratch)[0], 0


# At every width, each byte that the method needs is refused alone where it is not zero, and the byte behind them is accepted.
def dirty_places():
    for n in range(1, 9):
        for method in KINDS:
            case, table, log = Case(method, n, 1, 0, 0, 0, 0, 0, 0, 0), [0, 1] * 2 ** (n - 1), [9] * log_length(method, n)
            needed = scratch_length(method, n)
            for place in range(needed + 1):
                scratch = [0] * (needed + 1)
                scratch[place] = 1 + place % 255
                refusal = 0 if place == needed else 19
                name = f"byte {place} at n = {n}, method {method}"
                yield name + ", plain", model.plain_call(case, table, scratch)[0], refusal
                yield name + ", logged", model.logged_call(case, table, scratch, log)[0], refusal


# Buffers of any length and contents, the empty one too.
def clearing():
    for length in (0, 1, 2, 255, 256, 257, 600):
        for value in (0, 1, 128, 255):
            yield f"{length} bytes of {value} cleared", model.clear([value] * length), [0] * length
        counted = [place % 256 for place in range(length)]
        yield f"{length} counted bytes cleared", model.clear(counted), [0] * length
        yield f"{length} counted bytes back to front cleared", model.clear(counted[::-1]), [0] * length


# Every pair of widths under the methods, with what is just inside: the case and its table.
def widest_cases():
    for n in range(1, 9):
        for m in range(1, 9):
            top, table = 2**n - 1, [2**m - 1 - value % 2**m for value in range(2**n)]
            for method, r3, b in ((2, top, 0), (3, top, 1), (5, 0, 0)):
                yield Case(method, n, m, top, top, top, 2**m - 1, 2**m - 1, r3, b), table


# It is accepted, and the log says what it said before.
def widths():
    for case, table in widest_cases():
        name = f"widths {case.n} and {case.m}, method {case.method}"
        scratch = [0] * scratch_length(case.method, case.n)
        yield name, model.plain_call(case, table, scratch)[:2], (0, table[-1])
        _, share, count, _, log = model.logged_call(case, table, scratch, lent_log(2400))
        yield f"{name}, logged", (share, log[count:]), (table[-1], lent_log(2400)[log_length(case.method, case.n) :])
        yield from says_the_same(name, log[:count], old_log(case, table))


# The quick ones come first.
GROUPS = (packing, lengths, clearing, neighbours, calls_by_5, refusals, widths, bench_sheet, dirty_bench_calls, dirty_places)
