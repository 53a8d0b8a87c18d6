# Holds the model's counts to what the requirements say of them: those of a fit table are the same for all inputs, and those of every other
# table are not. Each group yields a name, what the model says and what it should say.
import itertools
from collections import Counter

import model
import tables
from document import KINDS
from probes import differing


# The position of the masked entry at a = 0, which is of kind 14, 15 or, in the second pass, 12. The answer stands last.
def masked_entry(method, n):
    return {2: 13, 3: 16, 5: 5 + 4 * 2**n + 3}[method]


def figures():
    for secret, figure in ((0, 96), (3, 32)):
        pairs = model.pair_counts([0, 0, 0, 1], 2, 2, 1, secret, 13, 33)
        yield f"0, 0, 0, 1 at {secret}", pairs[0, 0], figure
        yield f"choices at {secret}", sum(pairs.values()), 256
    for secret, figure in ((1, 16), (0, 0)):
        zeros = [c for c in model.choices(2, 1, 1, secret) if (c.s1 ^ c.s2, model.run(c, [1, 0], [0, 0])[0]) == (0, 0)]
        yield f"s1 and s2 in one go at {secret}", len(zeros), figure


# How many choices of method 5 at n = m = 1, of the table 1, 0, show 0 in both of what is formed of a case and its answer.
def zeros_by_5(secret, formed):
    cases = ((case, model.run(case, [1, 0], [0] * 4)[0]) for case in model.choices(5, 1, 1, secret))
    return sum(formed(case, answer) == (0, 0) for case, answer in cases)


# Worked by hand, + for an exclusive or. The masked entry and the answer are S[r1 + r2] and S[x], each with both output masks. Of 0, 0, 0, 1
# both show 0 where S[r1 + r2] is S[x] and the masks cancel it: for 12 of 16 pairs r1, r2 where S[x] is 0, for 4 where it is 1, each with 2
# of 4 pairs of masks. Three wrong ways, each counted in 16 choices: s1 + s2 in one go beside the answer, r1 + r2 beside x0, and s1 again in
# the second pass, which then holds S[r1 + r2], beside x0.
def figures_by_5():
    for secret, figure in ((0, 24), (3, 8)):
        pairs = model.pair_counts([0, 0, 0, 1], 5, 2, 1, secret, 24, 38)
        yield f"0, 0, 0, 1 at {secret}, method 5", (pairs[0, 0], sum(pairs.values())), (figure, 64)
    for secret, at_0 in ((0, 8), (1, 0)):
        in_one_go = zeros_by_5(secret, lambda case, answer: (case.s1 ^ case.s2, answer))
        yield f"s1 and s2 in one go at {secret}, method 5", in_one_go, 8 - at_0
        yield f"r1 and r2 in one go at {secret}", zeros_by_5(secret, lambda case, _: (case.x0, case.r1 ^ case.r2)), at_0
        yield f"s1 twice at {secret}", zeros_by_5(secret, lambda case, _: (case.x0, 1 - (case.r1 ^ case.r2))), 8 - at_0


# Worked by hand, + for an exclusive or: the masked entry and the answer differ by S[x0] + S[x], and x0 is any input. They are 0 and 2
# where S[x0] is S[x] + 2 and s1 + s2 is that too. Of 0, 1, 2, 4 this is one input in four and one pair of masks in eight where S[x] is 0,
# and none where S[x] is 1: 3 is absent. Under method 5 it is r1 + r2 instead of x0, and a fourth of the choices, or half at n = 1.
def unclosed_figures():
    for secret, figure in ((0, 128), (1, 0)):
        pairs = model.pair_counts([0, 1, 2, 4], 2, 2, 3, secret, 13, 33)
        yield f"0, 1, 2, 4 at {secret}", (pairs[0, 2], sum(pairs.values())), (figure, 4096)
        pairs = model.pair_counts([0, 1, 2, 4], 5, 2, 3, secret, 24, 38)
        yield f"0, 1, 2, 4 at {secret}, method 5", (pairs[0, 2], sum(pairs.values())), (figure // 4, 1024)
    for secret in (0, 1):
        yield f"0, 3 at {secret}", model.pair_counts([0, 3], 2, 1, 2, secret, 13, 21)[0, 3], 16
        yield f"0, 3 at {secret}, method 5", model.pair_counts([0, 3], 5, 1, 2, secret, 16, 22)[0, 3], 8


# The tables that are counted, and by which methods: all of the smallest widths, at n = m = 2 those that begin with 0, which with a number
# added to all entries are all, some without equal entries at m = 3, where alone closing matters, and some at n = 3.
def counted():
    for n, m in ((1, 1), (1, 2), (2, 1)):
        yield from ((method, n, m, table) for table in tables.every(n, m) for method in KINDS)
    yield from ((method, 2, 2, table) for table in tables.every(2, 2) if table[0] == 0 for method in KINDS)
    yield from ((method, 2, 3, [0, 1, *others]) for others in itertools.combinations(range(2, 8), 2) for method in (2, 5))
    yield from ((5, 3, 1, table) for table in ([0, 1, 1, 0, 1, 0, 0, 1], [0, 0, 0, 1, 0, 1, 1, 1], [0, 0, 0, 0, 0, 0, 1, 1]))


# A fit table leaks at no pair of positions. Any other does, and always at the masked entry and the answer: that these differ by
# S[x0] + S[x], or S[r1 + r2] + S[x], tells nothing only where the table looks the same from each of its entries.
def leaking():
    for method, n, m, table in counted():
        first, *others = (model.shown_values(table, method, n, m, secret) for secret in range(2**n))
        name, at = f"n = {n}, m = {m}, table {table}, method {method}", masked_entry(method, n)
        if model.is_fit(table):
            yield name, [pair for shown in others for pair in differing(first, shown)], []
        else:
            counts = {frozenset(Counter(zip(shown[at], shown[-1])).items()) for shown in (first, *others)}
            yield f"{name} leaks", len(counts) > 1, True
    # and the search for pairs that differ finds one
    for method, pair in ((2, (13, 33)), (5, (24, 38))):
        first, *others = (model.shown_values([0, 0, 0, 1], method, 2, 1, secret) for secret in range(4))
        yield f"0, 0, 0, 1 found, method {method}", pair in differing(first, others[-1]), True


GROUPS = (figures, figures_by_5, unclosed_figures, leaking)
