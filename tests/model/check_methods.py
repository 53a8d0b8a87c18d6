# Holds what the model's methods do in an accepted call, and the choices that are counted, to what is required of them (docs/REFERENCE.md).
# Each group yields a name, what the model says and what it should say.
import itertools

import model
from document import KINDS, TABLE_A
from model import Case

TOP = 2**32 - 1
P2 = Case(method=2, n=2, m=2, x0=0, r1=1, r2=2, s1=3, s2=0, r3=2, b=0)
P3 = P2._replace(method=3, b=1)
# P2's secret and masks under method 5, which has no r3.
P2_BY_5 = P2._replace(method=5, r3=0)
# P1's under method 5, and another call with both input masks.
P1_BY_5 = Case(method=5, n=1, m=1, x0=0, r1=1, r2=0, s1=0, s2=1, r3=0, b=0)
BOTH_MASKS = Case(method=5, n=1, m=2, x0=0, r1=0, r2=1, s1=2, s2=3, r3=0, b=0)


def log_length(method, n):
    head, passes, end = KINDS[method]
    return len(head) + sum(map(len, passes)) * 2**n + len(end)


def scratch_length(method, n):
    return 2**n + 2**n if method == 5 else 2**n


# How many choices of masks there are.
def choice_count(method, n, m):
    return {2: 2 ** (3 * n + 2 * m), 3: 2 * 2 ** (3 * n + 2 * m), 5: 2 ** (2 * n + 2 * m)}[method]


# A log to lend: no two entries are equal and none fits 16 bits, so that any change of one shows.
def lent_log(entries):
    return [TOP - place for place in range(entries)]


# The values of a log, in the order of the lists of kinds (document.py).
def values_2(case, table):
    _, n, _, x0, r1, r2, s1, s2, r3, _ = case
    r_prime = r1 ^ r3 ^ r2
    yield from (x0, r1, r2, s1, s2, r3, r1 ^ r3, r_prime)
    for a in range(2**n):
        entry = table[x0 ^ a]
        yield from (a, a ^ r_prime, x0 ^ a, entry, entry ^ s1, entry ^ s1 ^ s2)
    yield from (r3, table[x0 ^ r1 ^ r2] ^ s1 ^ s2)


def values_3(case, table):
    _, n, _, x0, r1, r2, s1, s2, r3, b = case
    yield from (x0, r1, r2, s1, s2, b, r3, 1 - b)
    for a in range(2**n):
        entry = table[x0 ^ a]
        match = a == r1 ^ r2
        yield from (a, r1 ^ a, r1 ^ a ^ r3, r1 ^ a ^ r3 ^ r2, b if match else 1 - b)
        yield from (x0 ^ a, entry, entry ^ s1, entry ^ s1 ^ s2)
    yield from (b, table[x0 ^ r1 ^ r2] ^ s1 ^ s2)


def values_5(case, table):
    _, n, _, x0, r1, r2, s1, s2, _, _ = case
    yield from (x0, r1, r2, s1, s2)
    for a in range(2**n):
        yield from (a, a ^ r1, table[a ^ r1], table[a ^ r1] ^ s1)
    for a in range(2**n):
        read = table[a ^ r2 ^ r1] ^ s1
        yield from (a, a ^ r2, read, read ^ s2)
    yield from (x0, table[x0 ^ r1 ^ r2] ^ s1 ^ s2)


# What each entry of a log says: its kind and its value.
def said(case, table):
    head, passes, end = KINDS[case.method]
    kinds = head + [kind for turn in passes for kind in turn * 2**case.n] + end
    values = {2: values_2, 3: values_3, 5: values_5}[case.method](case, table)
    return list(zip(kinds, values, strict=True))


def whole_log(case, table):
    return [kind * 65536 + value for kind, value in said(case, table)]


# The log of before, when an entry had 16 bits.
def old_log(case, table):
    return [kind * 256 + value for kind, value in said(case, table)]


# At each position an entry says what the one of before said. That one's value is below 256, so every value still is.
def says_the_same(name, log, old):
    yield (name, "kinds"), [entry // 65536 for entry in log], [entry // 256 for entry in old]
    yield (name, "values"), [entry % 65536 for entry in log], [entry % 256 for entry in old]


# Calls of method 5, each with its table and, by hand, its scratch, its answer and its log: head, first pass, second pass and end.
P1_BY_5_LOG = [
    *((1, 0), (2, 1), (3, 0), (4, 0), (5, 1)),
    *((6, 0), (7, 1), (8, 0), (9, 0), (6, 1), (7, 0), (8, 1), (9, 1)),
    *((6, 0), (10, 0), (11, 0), (12, 1), (6, 1), (10, 1), (11, 1), (12, 0)),
    *((1, 0), (13, 1)),
]
BOTH_MASKS_LOG = [
    *((1, 0), (2, 0), (3, 1), (4, 2), (5, 3)),
    *((6, 0), (7, 0), (8, 0), (9, 2), (6, 1), (7, 1), (8, 3), (9, 1)),
    *((6, 0), (10, 1), (11, 1), (12, 2), (6, 1), (10, 0), (11, 2), (12, 1)),
    *((1, 0), (13, 2)),
]
P2_BY_5_LOG = [
    *((1, 0), (2, 1), (3, 2), (4, 3), (5, 0)),
    *((6, 0), (7, 1), (8, 0), (9, 3), (6, 1), (7, 0), (8, 2), (9, 1)),
    *((6, 2), (7, 3), (8, 1), (9, 2), (6, 3), (7, 2), (8, 3), (9, 0)),
    *((6, 0), (10, 2), (11, 2), (12, 2), (6, 1), (10, 3), (11, 0), (12, 0)),
    *((6, 2), (10, 0), (11, 3), (12, 3), (6, 3), (10, 1), (11, 1), (12, 1)),
    *((1, 0), (13, 2)),
]
BY_HAND = [
    (P1_BY_5, [1, 0], [0, 1, 1, 0], 1, P1_BY_5_LOG),
    (BOTH_MASKS, [0, 3], [2, 1, 2, 1], 2, BOTH_MASKS_LOG),
    (P2_BY_5, TABLE_A, [3, 1, 2, 0, 2, 0, 3, 1], 2, P2_BY_5_LOG),
]


def by_hand():
    for case, table, scratch, share, pairs in BY_HAND:
        lent, log = [0] * len(scratch) + [9], [kind * 65536 + value for kind, value in pairs]
        wanted = 0, share, len(log), scratch + [9], log + lent_log(50)[len(log) :]
        yield (case, "by hand"), model.logged_call(case, table, lent, lent_log(50)), wanted
        yield (case, "by hand, plain"), model.plain_call(case, table, lent), (0, share, 0, scratch + [9])


# Accepted cases under the methods at small widths, every choice of masks for a secret each: the case, its table and the share S[x] with
# both output masks.
def accepted_cases():
    tables = {(1, 1): [1, 0], (1, 2): [0, 3], (1, 3): [5, 5], (2, 1): [0, 1, 1, 0], (2, 2): TABLE_A, (2, 3): [1, 2, 4, 7]}
    by_2_and_3 = (2, 1, 1, 0), (3, 1, 1, 1), (2, 2, 1, 3), (3, 2, 1, 2), (2, 2, 2, 1), (3, 2, 2, 3)
    by_2_and_3 += (2, 1, 2, 1), (3, 1, 2, 0), (2, 1, 3, 0), (2, 2, 3, 2)
    by_5 = ((5, n, m, secret) for n, m in tables for secret in range(2**n))
    for method, n, m, secret in (*by_2_and_3, *by_5):
        table = tables[n, m]
        for case in model.choices(method, n, m, secret):
            yield case, table, table[secret] ^ case.s1 ^ case.s2


# What every accepted case must come to: its share, the whole log, the same scratch in the plain call, untouched ends.
def answers():
    for case, table, share in accepted_cases():
        needed = scratch_length(case.method, case.n)
        end = [7] * (10 - needed)
        lent, log = [0] * needed + end, whole_log(case, table)
        refusal, answer, count, scratch, left = model.logged_call(case, table, lent, lent_log(50))
        yield (case, "logged"), (refusal, answer, count), (0, share, len(log))
        yield (case, "log"), left, log + lent_log(50)[len(log) :]
        yield from says_the_same(case, left[:count], old_log(case, table))
        yield (case, "end of the scratch"), scratch[needed:], end
        yield (case, "plain"), model.plain_call(case, table, lent), (0, share, 0, scratch)
        yield (case, "exported"), model.exported_call(case, table, lent), (share, scratch)


# Whether a call leaves its scratch clean. Method 2 leaves all values of the table there, each with both output masks, so one value alone
# must occur, and the masks cancel it; method 5 leaves each with s1 alone as well, so that value is s1 and s2 is 0. Method 3 leaves both b
# and 1 - b.
def leaves_clean(case, table):
    return {2: set(table) == {case.s1 ^ case.s2}, 3: False, 5: set(table) == {case.s1} and case.s2 == 0}[case.method]


# The same call on what it left is refused where that is not clean, and on that cleared it answers again.
def repeats():
    for case, table, share in accepted_cases():
        log = lent_log(50)
        first = model.logged_call(case, table, [0] * scratch_length(case.method, case.n), log)
        left = first[3]
        clean = leaves_clean(case, table)
        yield (case, "again, logged"), model.logged_call(case, table, left, log), first if clean else (19, 0, 0, left, log)
        yield (case, "again, plain"), model.plain_call(case, table, left), (0, 0, 0, left) if clean else (19, 0, 0, left)
        yield (case, "cleared, logged"), model.logged_call(case, table, model.clear(left), log), first
        yield (case, "cleared, plain"), model.plain_call(case, table, model.clear(left)), (0, share, 0, left)


# Under method 2 scratch byte a ⊕ r' is the masked entry at x0 ⊕ a, so byte c is the one at x ⊕ r3 ⊕ c. Under method 3 byte r3 alone is b.
# Under method 5 byte c of the second half is the masked entry at c ⊕ r1 ⊕ r2.
def wanted_scratch(case, secret):
    masks, places = case.s1 ^ case.s2, range(4)
    if case.method == 2:
        return [TABLE_A[secret ^ case.r3 ^ c] ^ masks for c in places]
    if case.method == 3:
        return [case.b if c == case.r3 else 1 - case.b for c in places]
    return [TABLE_A[c ^ case.r1] ^ case.s1 for c in places] + [TABLE_A[c ^ case.r1 ^ case.r2] ^ masks for c in places]


def scratches():
    for method in KINDS:
        for case in model.choices(method, 2, 2, 3):
            lent = [0] * scratch_length(method, 2)
            yield (case, "scratch"), model.plain_call(case, TABLE_A, lent)[3], wanted_scratch(case, 3)


# On the same secret and masks the methods have the same share, whatever r3 and b are where they are drawn.
def same_shares():
    for n, m, table in ((1, 1, [1, 0]), (1, 3, [2, 5]), (2, 1, [0, 1, 1, 0]), (2, 2, TABLE_A)):
        for case in (case for secret in range(2**n) for case in model.choices(5, n, m, secret)):
            others = [case._replace(method=2, r3=r3) for r3 in range(2**n)]
            others += [case._replace(method=3, r3=r3, b=b) for r3 in range(2**n) for b in (0, 1)]
            shares = {model.plain_call(call, table, [0] * 2**n)[:2] for call in others}
            yield (case, "and the others"), shares, {model.plain_call(case, table, [0] * 2 ** (n + 1))[:2]}


def counts():
    for method in KINDS:
        cases = list(model.choices(method, 2, 1, 2))
        yield f"choices of method {method}", (len(cases), len(set(cases))), (choice_count(method, 2, 1),) * 2
        yield f"secrets of method {method}", {case.x0 ^ case.r1 ^ case.r2 for case in cases}, {2}
        yield f"cases of method {method}", {case[:3] for case in cases}, {(method, 2, 1)}
    yield "r3 and b of method 5", {(case.r3, case.b) for case in model.choices(5, 2, 1, 2)}, {(0, 0)}
    yield "a = 0 and x0", model.pair_counts([1, 0], 2, 1, 1, 0, 8, 0), {(0, 0): 16, (0, 1): 16}
    yield "a = 0 and x0, method 5", model.pair_counts([1, 0], 5, 1, 1, 0, 5, 0), {(0, 0): 8, (0, 1): 8}
    yield "one position twice", model.pair_counts([1, 0], 2, 1, 1, 0, 1, 1), {(0, 0): 16, (1, 1): 16}
    for secret in range(4):
        yield f"values above 1 at {secret}", model.pair_counts(TABLE_A, 2, 2, 2, secret, 0, 33)[3, 2], 64
        yield f"values above 1 at {secret}, method 5", model.pair_counts(TABLE_A, 5, 2, 2, secret, 0, 38)[3, 2], 16


# What is counted is what the entries of the logged calls say, one call for each choice.
def counted_entries():
    for method, (n, m, table) in itertools.product(KINDS, ((1, 1, [1, 0]), (1, 2, [0, 3]), (2, 1, [0, 1, 1, 0]))):
        lent = [0] * scratch_length(method, n)
        for secret in range(2**n):
            calls = (model.logged_call(case, table, lent, lent_log(46)) for case in model.choices(method, n, m, secret))
            logs = [log[:count] for _, _, count, _, log in calls]
            shown = [list(column) for column in model.shown_values(table, method, n, m, secret)]
            said_there = [[entry % 65536 for entry in column] for column in zip(*logs, strict=True)]
            yield f"method {method}, {table} at {secret}", shown, said_there


# The quick ones come first.
GROUPS = (by_hand, counts, counted_entries, scratches, same_shares, answers, repeats)
