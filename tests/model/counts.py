# The count sheet and its print in plain Python, written from the requirements alone. It shares nothing with the proved code.
# A sheet is a list of 32-bit counts; tables, scratch and logs are as in model.py.
import functools
from collections import Counter, namedtuple

import editions
import model
from model import log_length, scratch_length

# The numbers of a count, in the order of the print's first line.
ProbePair = namedtuple("ProbePair", "method n m secret first second")

# The runs' values are kept: most counts differ from an earlier one in their positions alone.
shown_values = functools.lru_cache(maxsize=128)(model.shown_values)


# k: every value that a log shows is below 2^k.
def value_width(pair):
    return max(pair.n, pair.m)


def count_refusal(pair, table, scratch, log, sheet):
    refusal = model.table_refusal(pair.method, pair.n, pair.m, table)
    if refusal:
        return refusal
    if not model.fits(pair.n, [pair.secret]):
        return 10
    if len(scratch) < scratch_length(pair.method, pair.n):
        return 13
    length = log_length(pair.method, pair.n)
    if len(log) < length:
        return 14
    if pair.n > 3 or pair.m > 3:
        return 15
    if pair.first >= length or pair.second >= length:
        return 16
    if len(sheet) < 2 ** (2 * value_width(pair)):
        return 17
    return 0


# The count for values u and v stands at u * 2^k + v.
def pair_sheet(pair, table):
    shown = shown_values(tuple(table), pair.method, pair.n, pair.m, pair.secret)
    times = Counter(zip(shown[pair.first], shown[pair.second]))
    values = range(2 ** value_width(pair))
    return [times[u, v] for u in values for v in values]


# A buffer with something else in front.
def in_front(written, buffer):
    return list(written) + list(buffer[len(written) :])


# The refusal, and scratch, log and sheet as the call leaves them.
def count_sheet(pair, table, scratch, log, sheet):
    refusal = count_refusal(pair, table, scratch, log, sheet)
    if refusal:
        return refusal, list(scratch), list(log), list(sheet)
    scratch = in_front([0] * scratch_length(pair.method, pair.n), scratch)
    log = in_front([0] * log_length(pair.method, pair.n), log)
    return 0, scratch, log, in_front(pair_sheet(pair, table), sheet)


# What the program `counts` writes for an input: a line for each u, the refusal, or 1 where the input has another form.
def counts(text):
    read = editions.read_sheet(editions.NEW, text, ProbePair)
    if read is None:
        return editions.print_line(1)
    pair, table = read
    refusal, _, _, sheet = count_sheet(pair, table, [0] * scratch_length(5, 8), [0] * log_length(3, 8), [0] * 64)
    if refusal:
        return editions.print_line(refusal)
    size = 2 ** value_width(pair)
    return b"".join(editions.print_line(*sheet[u * size : (u + 1) * size], columns=8) for u in range(size))
