# Choosing one half of a word by a masked bit, in plain Python, written from the requirements and from Algorithm 4 of the source alone. It
# shares nothing with the proved code. A log is a list of 32-bit entries.
import itertools
from collections import namedtuple

import model

# The numbers of a call, in the order of its parameters. z0, z1 and z2 are the shares of the word, c0, c1 and c2 those of the bit.
Case = namedtuple("Case", "width z0 z1 z2 c0 c1 c2 t1 t2 b")

LOG_LENGTH = 28
# The rows of Table 3 that steps 4 to 6 form, and those of the other half, by steps 7 to 9.
ROWS = (12, 13, 14, 15, 16, 17, 18)
OTHER_ROWS = (19, 20, 21, 22, 23, 25, 26)


# What both calls refuse.
def plain_refusal(case):
    width, z0, z1, z2, c0, c1, c2, t1, t2, b = case
    if not 1 <= width <= 8:
        return 20
    words, bits, masks = [z0, z1, z2], [c0, c1, c2, b], [t1, t2]
    if not (model.fits(2 * width, words) and model.fits(1, bits) and model.fits(width, masks)):
        return 21
    return 0


def logged_refusal(case, log):
    refusal = plain_refusal(case)
    if refusal:
        return refusal
    if len(log) < LOG_LENGTH:
        return 14
    return 0


# H0 is the high half of a word, H1 the low one.
def half(at, width, word):
    return divmod(word, 2**width)[at]


# Algorithm 4 on an accepted case: the three results, and the log as pairs of a row of Table 3 and a value. Each of the registers A, B and C
# is two, of which the masked bit says which one takes which half.
def run(case):
    width, z0, z1, z2, c0, c1, c2, t1, t2, b = case
    A, B, C = [0, 0], [0, 0], [0, 0]
    mixed = c1 ^ b
    c3 = mixed ^ c2
    log = [(1, z0), (2, z1), (3, z2), (11, c0), (4, c1), (5, c2), (6, t1), (7, t2), (8, b), (9, mixed), (10, c3)]
    for rows, at, to in ((ROWS, c0, c3), (OTHER_ROWS, 1 - c0, 1 - c3)):
        first, second, third = half(at, width, z0), half(at, width, z1), half(at, width, z2)
        A[to] = first ^ t1
        B[to] = second ^ t2
        C[to] = third ^ t1 ^ t2
        log += zip(rows, (first, A[to], second, B[to], third, third ^ t1, C[to]))
    log += [(27, A[b]), (28, B[b]), (29, C[b])]
    return (A[b], B[b], C[b]), log


# The refusal, the three results, the count of entries, and the log as the call leaves it.
def select(case, log):
    refusal = logged_refusal(case, log)
    if refusal:
        return refusal, 0, 0, 0, 0, list(log)
    results, pairs = run(case)
    entries = [model.packed(kind, value) for kind, value in pairs]
    return 0, *results, len(entries), entries + list(log[len(entries) :])


# The refusal, and the three lent bytes as the call leaves them.
def plain_select(case, lent):
    refusal = plain_refusal(case)
    if refusal:
        return refusal, list(lent)
    results, _ = run(case)
    return 0, list(results)


# Every choice of masks for a word and a bit, as the case that it makes.
def choices(width, word, bit):
    words, masks, bits = range(4**width), range(2**width), range(2)
    for z1, z2, c1, c2, t1, t2, b in itertools.product(words, words, bits, bits, masks, masks, bits):
        yield Case(width, word ^ z1 ^ z2, z1, z2, bit ^ c1 ^ c2, c1, c2, t1, t2, b)


# The values that each position of the log shows, one for each choice of masks. A value is a byte up to width 4.
def shown_values(width, word, bit):
    logs = (run(case)[1] for case in choices(width, word, bit))
    values = (bytes(value for _, value in log) for log in logs)
    return [bytes(column) for column in zip(*values)]
