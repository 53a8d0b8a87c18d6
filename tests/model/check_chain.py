# Holds the model's chained call to what is required of it (docs/REFERENCE.md). Each group yields a name, what the model says and what it
# should say.
import itertools
import random

import chain
import model
from chain import Second
from check_calls import faults, fine_call
from check_counts import TABLES
from check_methods import P1_BY_5, P1_BY_5_LOG, P2, P2_BY_5, P3, TOP
from check_methods import choice_count, lent_log, log_length, old_log, says_the_same, scratch_length, whole_log
from document import KINDS, TABLE_A
from model import Case

# Nine, the one of method 2 alone in front.
PAIRINGS = list(itertools.product(KINDS, repeat=2))
# The tables of the widths that the refusals are tried at: the first's n, the m that is the second's n, and the second's m all differ.
TABLE_32, TABLE_21 = TABLES[3, 2], TABLES[2, 1]
ONE_BIT = [[1, 0], [1, 0]]
# P1's log and the one of a call after it, head, two turns and end, by hand; and both as they were when an entry had 16 bits.
P1_LOG = [
    *(655360, 65537, 131072, 196608, 262145, 327681, 393216, 458752),
    *(524288, 589824, 720896, 786433, 851969, 917504),
    *(524289, 589825, 720897, 786432, 851968, 917505),
    *(327681, 983041),
]
LATER_LOG = [
    *(655361, 65536, 131073, 196609, 262145, 327680, 393216, 458753),
    *(524288, 589825, 720897, 786432, 851969, 917504),
    *(524289, 589824, 720896, 786433, 851968, 917505),
    *(327680, 983041),
]
OLD_P1_LOG = [
    *(2560, 257, 512, 768, 1025, 1281, 1536, 1792),
    *(2048, 2304, 2816, 3073, 3329, 3584),
    *(2049, 2305, 2817, 3072, 3328, 3585),
    *(1281, 3841),
]
OLD_LATER_LOG = [
    *(2561, 256, 513, 769, 1025, 1280, 1536, 1793),
    *(2048, 2305, 2817, 3072, 3329, 3584),
    *(2049, 2304, 2816, 3073, 3328, 3585),
    *(1280, 3841),
]
# The one of method 5 after P1 under method 5, as kinds and values: x0 is 1, r1 and r2 are 0 and 1.
LATER_BY_5_LOG = [
    *((1, 1), (2, 0), (3, 1), (4, 1), (5, 1)),
    *((6, 0), (7, 0), (8, 1), (9, 0), (6, 1), (7, 1), (8, 0), (9, 1)),
    *((6, 0), (10, 1), (11, 1), (12, 0), (6, 1), (10, 0), (11, 0), (12, 1)),
    *((1, 1), (13, 1)),
]


# Scratch of zeros for a call, with a byte more than it needs.
def zeros_for(call):
    return [0] * (scratch_length(call.method, call.n) + 1)


# A chained call on scratches of zeros and logs of entries as large as can be, with an entry more than each call needs.
def called(first, second, tables):
    logs = [[TOP] * (log_length(call.method, call.n) + 1) for call in (first, second)]
    return chain.chained_call(first, second, tables, [zeros_for(first), zeros_for(second)], logs)


# Worked by hand, + for an exclusive or. P1's answer is 1, its output masks are 0 and 1, so the second looks up 1 + 0 + 1 = 0 and finds 1.
# P2's and P3's is 2, their masks are 3 and 0, so it looks up 2 + 3 + 0 = 1 = S[3] and finds 1; byte c of its scratch is then
# T[1 + r3 + c] + s1 + s2, or under method 3 b at r3 alone.
def figures():
    p1 = Case(2, 1, 1, 0, 1, 0, 0, 1, 1, 0)
    after_p1, after_p2 = Second(2, 1, 1, s1=1, s2=1, r3=0, b=0), Second(2, 2, 1, s1=1, s2=0, r3=2, b=0)
    left = called(p1, after_p1, ONE_BIT)
    yield "P1 and method 2", left, (0, 1, 22, 22, [0, 1, 0], [1, 0, 0], P1_LOG + [TOP], LATER_LOG + [TOP])
    yield from says_the_same("P1", left[6][:-1], OLD_P1_LOG)
    yield from says_the_same("method 2 after P1", left[7][:-1], OLD_LATER_LOG)
    tables = [TABLE_A, TABLE_21]
    yield "P2 and method 2", called(P2, after_p2, tables)[:6], (0, 0, 34, 34, [3, 1, 2, 0, 0], [1, 0, 0, 1, 0])
    yield "P3 and method 2", called(P3, after_p2, tables)[:6], (0, 0, 46, 34, [0, 0, 1, 0, 0], [1, 0, 0, 1, 0])
    after_p3 = after_p2._replace(method=3, b=1)
    yield "P2 and method 3", called(P2, after_p3, tables)[:6], (0, 0, 34, 46, [3, 1, 2, 0, 0], [0, 0, 1, 0, 0])
    yield "P3 and method 3", called(P3, after_p3, tables)[:6], (0, 0, 46, 46, [0, 0, 1, 0, 0], [0, 0, 1, 0, 0])


# Worked by hand as above. Under method 5 P2 and P3 answer the same, and what follows has r1 = 3, r2 = 0: byte c of its first half is
# T[c + 3] + 1, that of its second half the same, as s2 is 0.
def figures_by_5():
    tables, after_p2 = [TABLE_A, TABLE_21], Second(2, 2, 1, s1=1, s2=0, r3=2, b=0)
    left_5, left_later = [3, 1, 2, 0, 2, 0, 3, 1, 0], [1, 0, 0, 1, 1, 0, 0, 1, 0]
    by_5 = after_p2._replace(method=5, r3=0)
    yield "P2 by 5 and method 2", called(P2_BY_5, after_p2, tables)[:6], (0, 0, 39, 34, left_5, [1, 0, 0, 1, 0])
    after_p3 = after_p2._replace(method=3, b=1)
    yield "P2 by 5 and method 3", called(P2_BY_5, after_p3, tables)[:6], (0, 0, 39, 46, left_5, [0, 0, 1, 0, 0])
    yield "P2 and method 5", called(P2, by_5, tables)[:6], (0, 0, 34, 39, [3, 1, 2, 0, 0], left_later)
    yield "P3 and method 5", called(P3, by_5, tables)[:6], (0, 0, 46, 39, [0, 0, 1, 0, 0], left_later)
    yield "P2 by 5 and method 5", called(P2_BY_5, by_5, tables)[:6], (0, 0, 39, 39, left_5, left_later)
    left = called(P1_BY_5, Second(5, 1, 1, s1=1, s2=1, r3=0, b=0), ONE_BIT)
    logs = [[kind * 65536 + value for kind, value in pairs] + [TOP] for pairs in (P1_BY_5_LOG, LATER_BY_5_LOG)]
    yield "P1 by 5 and method 5", left, (0, 1, 23, 23, [0, 1, 1, 0, 0], [0, 1, 0, 1, 0], *logs)
    for r3, b, refusal in ((1, 0, 12), (3, 0, 12), (4, 0, 10), (4, 1, 10), (0, 1, 12)):
        wanted = refusal, 0, 0, 0, [0] * 9, [0] * 9
        yield f"first's r3 = {r3}, b = {b}", called(P2_BY_5._replace(r3=r3, b=b), by_5, tables)[:6], wanted
        yield f"second's r3 = {r3}, b = {b}", called(P2_BY_5, by_5._replace(r3=r3, b=b), tables)[:6], wanted


# Entries as large as can be, in another order. Its values are a coset.
def mixed_table(n, m, factor):
    return [2**m - 1 - place * factor % 2 ** min(n, m) for place in range(2**n)]


# Accepted chains of all pairings: an input, a choice of masks for it, and the tables. At widths of 1 it is every choice, and where all
# widths differ it is some. r3 has no bits under method 5, and b has one under method 3 alone.
def accepted_chains():
    chance = random.Random(1)
    below = lambda width: chance.randrange(2**width)
    own = lambda method, n: (below(0 if method == 5 else n), below(1 if method == 3 else 0))
    for methods in PAIRINGS:
        for secret in (0, 1):
            seconds = list(chain.second_choices(methods[1], 1, 1))
            for first, second in itertools.product(model.choices(methods[0], 1, 1, secret), seconds):
                yield secret, first, second, ONE_BIT
        for n, m, last in [(3, 2, 1)] * 100 + [(8, 5, 3), (3, 4, 6), (1, 8, 8)]:
            secret, r1, r2 = below(n), below(n), below(n)
            first = Case(methods[0], n, m, secret ^ r1 ^ r2, r1, r2, below(m), below(m), *own(methods[0], n))
            second = Second(methods[1], m, last, below(last), below(last), *own(methods[1], m))
            tables = mixed_table(n, m, 3), mixed_table(m, last, 5)
            yield secret, first, second, (TABLE_32, TABLE_21) if m == 2 else tables


# What every accepted chain comes to: the share, both counts, and what two logged calls would leave, the second's on the first's output
# shares.
def answers():
    for secret, first, second, tables in accepted_chains():
        entry = tables[0][secret]
        case = Case(*second[:3], entry ^ first.s1 ^ first.s2, first.s1, first.s2, *second[3:])
        refusal, share, count, second_count, scratch, second_scratch, log, second_log = called(first, second, tables)
        logs = whole_log(first, tables[0]), whole_log(case, tables[1])
        name = secret, first, second
        yield (name, "joined"), (refusal, share ^ second.s1 ^ second.s2), (0, tables[1][entry])
        yield (name, "counts"), (count, second_count), (len(logs[0]), len(logs[1]))
        yield (name, "logs"), (log, second_log), (logs[0] + [TOP], logs[1] + [TOP])
        yield from says_the_same((name, "first"), log[:-1], old_log(first, tables[0]))
        yield from says_the_same((name, "second"), second_log[:-1], old_log(case, tables[1]))
        left = [model.plain_call(call, table, zeros_for(call))[3] for call, table in zip((first, case), tables)]
        yield (name, "scratches"), [scratch, second_scratch], left


# A chain that is accepted, and its faults in the order of the checks: the refusal, what is faulty and what stands there. Both go by the
# methods. A place is a call, 0 or 1, and a name. x0, r1 and r2 are no places of the second.
def places(call, named):
    return {(call, name): value for name, value in named.items() if call == 0 or name not in ("x0", "r1", "r2")}


def faults_of(call, known):
    return [(refusal, changed) for refusal, name, value in known if (changed := places(call, {name: value}))]


def fine(methods):
    return {**places(0, fine_call(methods[0], 3, 2, TABLE_32)), **places(1, fine_call(methods[1], 2, 1, TABLE_21))}


# Fine tables for which the first's m is one less or one more than the second's n, or as large as can be. No other fault makes the two
# equal.
UNEQUAL = [
    (18, places(0, dict(m=1, table=[0, 1, 1, 0, 1, 0, 0, 1]))),
    (18, places(0, dict(m=3, table=TABLES[3, 3]))),
    (18, places(0, dict(m=8, table=TABLE_32))),
    (18, places(1, dict(n=1, table=[1, 0]))),
]


def chain_faults(methods):
    first, second = faults_of(0, faults(methods[0], 3, 2, TABLE_32)), faults_of(1, faults(methods[1], 2, 1, TABLE_21))
    of_tables = [[fault for fault in known if fault[0] <= 7] for known in (first, second)]
    others = [[fault for fault in known if fault[0] > 7] for known in (first, second)]
    return [*of_tables[0], *of_tables[1], *UNEQUAL, *others[0], *others[1]]


# The arguments that the places make.
def arguments(call):
    *first, table, scratch, log = (value for (at, _), value in call.items() if at == 0)
    *second, second_table, second_scratch, second_log = (value for (at, _), value in call.items() if at == 1)
    logs = lent_log(log), lent_log(second_log)
    return Case(*first), Second(*second), (table, second_table), (scratch, second_scratch), logs


def refused(call, refusal):
    _, _, _, scratches, logs = arguments(call)
    yield (call, "refused"), chain.chained_call(*arguments(call)), (refusal, 0, 0, 0, *scratches, *logs)


# Each fault in all pairings, and, a ninth of them in each, any two in different places: the one that stands first in the order is returned.
def refusals():
    for turn, methods in enumerate(PAIRINGS):
        known = chain_faults(methods)
        for at, (refusal, changed) in enumerate(known):
            yield from refused({**fine(methods), **changed}, refusal)
            for other, others in known[at + turn :: 9]:
                if not changed.keys() & others.keys() and (refusal, other) != (18, 18):
                    yield from refused({**fine(methods), **changed, **others}, refusal)


# What stands just inside, each call's numbers and buffers in turn, is accepted; b = 1 under method 3 alone.
def neighbours():
    for methods in PAIRINGS:
        for call, (n, m) in enumerate([(3, 2), (2, 1)]):
            needed = [0] * scratch_length(methods[call], n)
            inside = [("scratch", needed), ("scratch", [*needed, 255, 1]), ("log", log_length(methods[call], n))]
            inside += [(name, value) for name in ("x0", "r1", "r2") for value in (0, 2**n - 1)]
            inside += [("r3", value) for value in ((0,) if methods[call] == 5 else (0, 2**n - 1))]
            inside += [(name, value) for name in ("s1", "s2") for value in (0, 2**m - 1)]
            for name, value in inside:
                got = chain.chained_call(*arguments({**fine(methods), **places(call, {name: value})}))
                yield f"{name} {value} of call {call}, methods {methods}", got[0], 0
            yield from refused({**fine(methods), (call, "log"): log_length(methods[call], n) - 1}, 14)
            got = chain.chained_call(*arguments({**fine(methods), (call, "b"): 1}))
            yield f"b = 1 of call {call}, methods {methods}", got[0], 0 if methods[call] == 3 else 12


# At every triple of widths: accepted where the first's m is the second's n, and 18 where it is another.
def widths():
    for n, m, second_n in itertools.product(range(1, 9), repeat=3):
        methods, last = PAIRINGS[(n + m + second_n) % 9], (n + m) % 8 + 1
        first, second = Case(methods[0], n, m, 0, 0, 0, 0, 0, 0, 0), Second(methods[1], second_n, last, 0, 0, 0, 0)
        tables = [place % 2**m for place in range(2**n)], [place % 2**last for place in range(2**second_n)]
        yield f"widths {n}, {m} and {second_n}", called(first, second, tables)[:2], (0 if m == second_n else 18, 0)


# How many choices the second call has: its r1 and r2, of 2^n values each, are the first's.
def own_choices(method, n, m):
    return choice_count(method, n, m) // 4**n


# All masks stand in a log, so each choice shows something else, and no choice is left out.
def choices():
    for methods in PAIRINGS:
        seconds = list(chain.second_choices(methods[1], 2, 1))
        yield f"choices of the second, method {methods[1]}", len(set(seconds)), own_choices(methods[1], 2, 1)
        yield f"masks that are too large, method {methods[1]}", [own for own in seconds if own.s1 > 1 or own.s2 > 1 or own.r3 > 3], []
        for secret in (0, 1):
            shown = chain.shown_values(methods, (1, 1, 1), ONE_BIT, secret)
            size = log_length(methods[0], 1) + log_length(methods[1], 1), choice_count(methods[0], 1, 1) * own_choices(methods[1], 1, 1)
            yield f"choices of methods {methods} at {secret}", (len(shown), len(set(zip(*shown)))), size
            yield f"inputs of methods {methods} at {secret}", {x0 ^ r1 ^ r2 for x0, r1, r2 in zip(*shown[:3])}, {secret}


# What is counted is what the entries of both logs say, one chain for each choice.
def counted_entries():
    for methods in PAIRINGS:
        for secret in (0, 1):
            every = itertools.product(model.choices(methods[0], 1, 1, secret), chain.second_choices(methods[1], 1, 1))
            logs = (called(first, second, ONE_BIT)[6:] for first, second in every)
            values = [[entry % 65536 for entry in log[:-1] + second_log[:-1]] for log, second_log in logs]
            shown = chain.shown_values(methods, (1, 1, 1), ONE_BIT, secret)
            yield f"entries of methods {methods} at {secret}", list(map(list, shown)), list(map(list, zip(*values, strict=True)))


# The quick ones come first.
GROUPS = (figures, figures_by_5, neighbours, choices, counted_entries, widths, refusals, answers)
