# Holds the model's count sheet and its print to what is required of them (docs/REFERENCE.md). Each group yields a name, what the model says
# and what it should say.
import counts
import model
from check_methods import TOP, choice_count, lent_log, log_length, scratch_length
from count_sheets import P12_PAIR, PAIR, SAMPLE, probe_sheet
from counts import ProbePair
from document import KINDS, SAMPLE_INPUT, TABLE_A

# Fit tables of every pair of widths, balanced where m is at most n.
TABLES = {
    (1, 1): [1, 0],
    (1, 2): [0, 3],
    (1, 3): [6, 3],
    (2, 1): [0, 1, 1, 0],
    (2, 2): TABLE_A,
    (2, 3): [7, 1, 2, 4],
    (3, 1): [0, 1, 1, 0, 1, 0, 0, 1],
    (3, 2): [3, 0, 1, 1, 2, 0, 3, 2],
    (3, 3): [6, 1, 0, 7, 3, 5, 2, 4],
}


# How many counts a sheet has.
def size(n, m):
    return 4**n if n > m else 4**m


# The sheet of an accepted pair, with buffers that just suffice.
def sheet_of(pair, table=None):
    method, n, m, *_ = pair
    lent = [9] * scratch_length(method, n), [9] * log_length(method, n), [9] * size(n, m)
    refusal, _, _, sheet = counts.count_sheet(pair, table or TABLES[n, m], *lent)
    return sheet if refusal == 0 else refusal


# P12 of the bench sheet, and counts that can be worked out by hand: of a mask, of a mask and another one, of a loop number, of b and 1 - b.
def figures():
    for secret in (0, 1):
        yield f"P12 at {secret}", sheet_of(P12_PAIR._replace(secret=secret)), [8, 8, 8, 8]
    yield "r1 twice", sheet_of(P12_PAIR._replace(first=1, second=1)), [16, 0, 0, 16]
    yield "a = 0 and x0", sheet_of(P12_PAIR._replace(first=8, second=0)), [16, 16, 0, 0]
    yield "x0 and a = 0", sheet_of(P12_PAIR._replace(first=0, second=8)), [16, 0, 16, 0]
    yield "b and 1 - b", sheet_of(ProbePair(3, 1, 1, 1, 5, 7)), [0, 32, 32, 0]
    yield "r1 and s1", sheet_of(ProbePair(2, 2, 1, 3, 1, 3)), [32, 32, 0, 0] * 4
    yield "s1 and r1", sheet_of(ProbePair(2, 2, 1, 3, 3, 1)), [32] * 8 + [0] * 8
    yield "x0 and x0 + 3", sheet_of(ProbePair(2, 2, 2, 1, 0, 28)), [256 * (v == 3 - u) for u in range(4) for v in range(4)]
    yield "x0 and S[x0]", sheet_of(ProbePair(2, 2, 2, 0, 0, 11)), [256 * (v == TABLE_A[u]) for u in range(4) for v in range(4)]
    yield "a = 7 and x0", sheet_of(ProbePair(2, 3, 1, 6, 50, 0)), [0] * 56 + [256] * 8
    yield "a = 7 and b", sheet_of(ProbePair(3, 3, 2, 6, 71, 80)), [0] * 56 + [2**13] * 2 + [0] * 6
    yield "a = 7 twice", sheet_of(ProbePair(3, 3, 3, 0, 71, 71)), [0] * 63 + [2**16]
    for secret in (0, 1):
        yield f"0, 3 and its answer at {secret}", sheet_of(ProbePair(2, 1, 2, secret, 11, 21)), [16] * 4 + [0] * 8 + [16] * 4
    yield "r1 and s1, m above n", sheet_of(ProbePair(2, 1, 3, 1, 1, 3)), [32] * 16 + [0] * 48
    yield "s1 and r1, m above n", sheet_of(ProbePair(2, 1, 3, 1, 3, 1)), [32, 32, 0, 0, 0, 0, 0, 0] * 8
    yield "a constant table's entry twice", sheet_of(ProbePair(3, 2, 3, 1, 14, 14), [7] * 4), [0] * 63 + [2**13]


# By hand too: of x0 and the answer, of masks, of loop numbers in either pass, of x0 at both ends, of a place and what stands there.
def figures_by_5():
    by_5 = ProbePair(5, 1, 1, 0, 0, 22)
    for secret in (0, 1):
        yield f"P12 by 5 at {secret}", sheet_of(by_5._replace(secret=secret)), [4, 4, 4, 4]
        yield f"0, 3 and its answer by 5 at {secret}", sheet_of(ProbePair(5, 1, 2, secret, 7, 22)), [8] * 4 + [0] * 8 + [8] * 4
    yield "r2 twice", sheet_of(by_5._replace(first=2, second=2)), [8, 0, 0, 8]
    yield "s1 and r1 by 5", sheet_of(ProbePair(5, 2, 1, 3, 3, 1)), [8] * 8 + [0] * 8
    yield "s2 and r2, m above n", sheet_of(ProbePair(5, 1, 3, 1, 4, 2)), [16, 16, 0, 0, 0, 0, 0, 0] * 8
    yield "x0 and x0", sheet_of(ProbePair(5, 2, 2, 1, 0, 37)), [64 * (u == v) for u in range(4) for v in range(4)]
    yield "r1 and S[r1]", sheet_of(ProbePair(5, 2, 2, 0, 1, 7)), [64 * (v == TABLE_A[u]) for u in range(4) for v in range(4)]
    yield "a = 7 in both passes", sheet_of(ProbePair(5, 3, 3, 2, 33, 65)), [0] * 63 + [2**12]
    yield "a = 0 in the second pass and s2", sheet_of(ProbePair(5, 3, 1, 2, 37, 4)), [128, 128] + [0] * 62


# Pairs of positions that the laws are tried at: first and last ones, one twice, and some between.
def positions(method, n):
    last = log_length(method, n) - 1
    return [(0, last), (last, 0), (last, last), (13, last), (last - 3, 12), (9, 16), (7, 7)]


def sums():
    for n, m in TABLES:
        for method in KINDS:
            for first, second in positions(method, n):
                sheet = sheet_of(ProbePair(method, n, m, 0, first, second))
                wanted = size(n, m), choice_count(method, n, m)
                yield f"sum of {method} {n} {m} {first} {second}", (len(sheet), sum(sheet)), wanted


# Every pair of positions at n = 1, and some at the other widths.
def equal_sheets():
    for n, m in TABLES:
        for method in KINDS:
            every = range(log_length(method, n))
            pairs = [(i, j) for i in every for j in every] if n == 1 else positions(method, n)
            for first, second in pairs:
                pair = ProbePair(method, n, m, 0, first, second)
                for secret in range(1, 2**n) if n < 3 else (7,):
                    yield f"{pair} at {secret}", sheet_of(pair._replace(secret=secret)), sheet_of(pair)


# The same pairs of values counted one by one, in a table of other entries than the runs above.
def single_counts():
    table = [1, 3, 0, 2]
    by_2 = ((2, *positions) for positions in ((13, 33), (33, 13), (11, 17), (0, 29)))
    by_5 = ((5, *positions) for positions in ((24, 38), (38, 24), (8, 32), (0, 7)))
    for method, first, second in (*by_2, *by_5):
        pairs = model.pair_counts(table, method, 2, 2, 2, first, second)
        sheet = sheet_of(ProbePair(method, 2, 2, 2, first, second), table)
        for u in range(4):
            for v in range(4):
                yield f"count of {u} and {v} at {first} and {second}, method {method}", sheet[u * 4 + v], pairs[u, v]


# A count's arguments by their names: the six numbers, the table, scratch and sheet, and the length of the log. All lent is dirty.
def arguments(method, n, m, table, **others):
    scratch, sheet = [7] * (scratch_length(method, n) + 1), list(range(1, size(n, m) + 2))
    numbers = dict(method=method, n=n, m=m, secret=2**n - 1, first=0, second=log_length(method, n) - 1)
    return {**numbers, "table": table, "scratch": scratch, "log": log_length(method, n), "sheet": sheet, **others}


def called(call):
    *numbers, table, scratch, log_entries, sheet = call.values()
    return counts.count_sheet(ProbePair(*numbers), table, scratch, lent_log(log_entries), sheet)


# Faults of such a call in the order of the checks: the refusal, what is faulty and what stands there.
def faults(method, n, m, table):
    length, needed = log_length(method, n), scratch_length(method, n)
    return [
        *((2, "method", value) for value in (0, 1, 4, 6, 258, 261, 2**16 + 3, TOP)),
        *((3, "n", value) for value in (0, 9, 258, 2**16 + 2, TOP)),
        *((4, "m", value) for value in (0, 9, 257, 2**16 + 1, TOP)),
        *((5, "table", value) for value in ([], table[:-1], table + [0])),
        *((6, "table", value) for value in ([2**m, *table[1:]], [*table[:-1], 255])),
        *((7, "table", value) for value in ([table[0] ^ 1, *table[1:]], [*table[:-1], table[-1] ^ 1])),
        *((10, "secret", value) for value in (2**n, 256, 2**16, TOP)),
        *((13, "scratch", value) for value in ([], [0] * (needed - 1), [7] * (needed - 1), [0] * (needed // 2))),
        *((14, "log", value) for value in (0, length - 1)),
        *((16, name, value) for name in ("first", "second") for value in (length, 256, 2**16, TOP)),
        *((17, "sheet", value) for value in ([], [7] * (size(n, m) - 1))),
    ]


def refused(call, refusal):
    wanted = refusal, call["scratch"], lent_log(call["log"]), call["sheet"]
    yield f"{call} refused", called(call), wanted


# Each fault, and any two in different places. Where n or m is 4 the count is refused with 15: behind 14, before 16 and 17.
def refusals():
    for method in KINDS:
        for n, m, table in ((2, 1, [0, 1, 1, 0]), (2, 3, [0, 3, 5, 6]), (4, 1, [0, 1] * 8), (2, 4, [0, 3, 5, 6])):
            wide = 15 if n > 3 or m > 3 else TOP
            known = faults(method, n, m, table)
            for at, (refusal, place, value) in enumerate(known):
                call = {**arguments(method, n, m, table), place: value}
                yield from refused(call, min(refusal, wide))
                for _, second, value2 in known[at:]:
                    if second != place:
                        yield from refused({**call, second: value2}, min(refusal, wide))
    for n in range(1, 9):
        for m in range(1 if n > 3 else 4, 9):
            for method in (3, 5):
                yield from refused(arguments(method, n, m, [place % 2**m for place in range(2**n)]), 15)


# What stands just inside is accepted, whatever the lent buffers hold, and what is behind the parts that are written stays.
def accepted():
    for method in KINDS:
        for (n, m), table in TABLES.items():
            length, counted, needed = log_length(method, n), size(n, m), scratch_length(method, n)
            for changed in (
                {},
                {"first": length - 1, "second": 0, "secret": 0},
                {"scratch": [255] * needed, "sheet": [TOP] * counted},
                {"scratch": [0] * needed + [1, 2, 3], "sheet": [0] * counted + [TOP, 1, 2]},
                {"log": length + 3},
            ):
                call = arguments(method, n, m, table, **changed)
                refusal, scratch, log, sheet = called(call)
                tails = call["scratch"][needed:], lent_log(call["log"])[length:], call["sheet"][counted:]
                name = f"{method} {n} {m} {changed}"
                yield f"{name} accepted", (refusal, sum(sheet[:counted])), (0, choice_count(method, n, m))
                yield f"{name}, scratch", scratch, [0] * needed + tails[0]
                yield f"{name}, log", log, [0] * length + tails[1]
                yield f"{name}, sheet behind the counts", sheet[counted:], tails[2]


# The print's form: a line of 2^k counts for each u, a refusal, or 1.
def prints():
    yield "P12 as input", SAMPLE, b"     2     1     1     0     0    21\n     1\n     0\n"
    yield "P12 printed", counts.counts(SAMPLE), b"       8       8\n       8       8\n"
    rows = [b"      16" * 4] * 2 + [b"       0" * 4] * 2
    yield "0, 3 printed", counts.counts(probe_sheet(ProbePair(2, 1, 2, 1, 1, 3), [0, 3])).split(b"\n"), [*rows, b""]
    known = (2, 2, 1, 3, 1, 3), (2, 1, 3, 1, 13, 21), (3, 2, 3, 2, 16, 45), (5, 2, 3, 1, 24, 38), (3, 3, 3, 0, 71, 71)
    for pair in (ProbePair(*numbers) for numbers in known):
        table, values = TABLES[pair.n, pair.m], 2 ** max(pair.n, pair.m)
        sheet = sheet_of(pair, table)
        lines = [b"".join(b"%8d" % count for count in sheet[at : at + values]) for at in range(0, values * values, values)]
        yield f"{pair} printed", counts.counts(probe_sheet(pair, table)).split(b"\n"), [*lines, b""]
    yield "a wide count", counts.counts(probe_sheet(pair, table))[-9:], b"   65536\n"
    yield "nothing", counts.counts(b""), b"     1\n"
    yield "a case of ten numbers", counts.counts(SAMPLE_INPUT), b"     1\n"
    yield "P12 in four columns", counts.counts(b"   2   1   1   0   0  21\n   1\n   0\n"), b"     1\n"
    yield "five numbers", counts.counts(b"     2     1     1     0     0\n     1\n     0\n"), b"     1\n"
    yield "no table", counts.counts(probe_sheet(P12_PAIR, [])), b"     5\n"
    yield "P12 by 5 printed", counts.counts(probe_sheet(ProbePair(5, 1, 1, 0, 0, 22), [1, 0])), b"       4       4\n       4       4\n"
    yield "a position by 5", counts.counts(probe_sheet(ProbePair(5, 1, 1, 0, 0, 23), [1, 0])), b"    16\n"
    for method in (4, 6):
        yield f"method {method}", counts.counts(probe_sheet(P12_PAIR._replace(method=method), [])), b"     2\n"
    for method, first, second in ((2, 13, 33), (5, 24, 38)):
        refused_pair = ProbePair(method, 2, 1, 0, first, second)
        yield f"the refused table, method {method}", counts.counts(probe_sheet(refused_pair, [0, 0, 0, 1])), b"     7\n"
    yield "a position", counts.counts(probe_sheet(P12_PAIR._replace(second=22), [1, 0])), b"    16\n"
    for method in KINDS:
        for n in range(4, 9):
            yield f"method {method} at n = {n}", counts.counts(probe_sheet(ProbePair(method, n, n, 0, 0, 0), range(2**n))), b"    15\n"
            yield f"method {method} at m = {n}", counts.counts(probe_sheet(ProbePair(method, 1, n, 0, 0, 0), [0, 3])), b"    15\n"


# A number above 255 in each field, in each place of a table, and beside what is refused before it.
def wide_numbers():
    printed = lambda table, **changed: counts.counts(probe_sheet(PAIR._replace(**changed), table))
    for name, refusal in {"method": 2, "n": 3, "m": 4, "secret": 10, "first": 16, "second": 16}.items():
        for value in (255, 256, 257, 258, 300, 65535, 256 + getattr(PAIR, name), 65280 + getattr(PAIR, name)):
            yield f"{name} = {value}", printed(TABLE_A, **{name: value}), b"%6d\n" % refusal
    for secret, refusal in ((255, 15), (256, 10), (65535, 10)):
        yield f"secret {secret} at n = 8", printed(range(256), n=8, m=8, secret=secret), b"%6d\n" % refusal
    for position in (300, 2313, 65535):
        yield f"position {position} at n = 8", printed(range(256), n=8, m=8, second=position), b"    15\n"
    for entry in (256, 257, 258, 300, 65535):
        for m in range(1, 9):
            for table in ([entry, 0, 0, 0], [0, 0, 0, entry], [entry] * 4):
                yield f"{table} at m = {m}", printed(table, m=m), b"     6\n"
        yield f"0 and {entry}", printed([0, entry], n=1, m=8, secret=0), b"     6\n"
    for name, value, refusal in (("method", 4, 2), ("n", 9, 3), ("n", 3, 5), ("m", 9, 4), ("secret", 4, 6), ("first", 46, 6)):
        yield f"an entry of 300 beside {name} = {value}", printed([2, 300, 3, 1], **{name: value}), b"%6d\n" % refusal
    for table in ([300], [2, 0, 3, 1, 300], [300] * 256):
        yield f"300 among {len(table)} entries", printed(table), b"     5\n"


# The quick ones come first.
GROUPS = (figures, figures_by_5, prints, wide_numbers, refusals, accepted, single_counts, sums, equal_sheets)
