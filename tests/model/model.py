# The calls, the logs, the counts and the bench print in plain Python, written from the requirements alone, without looking at the code.
# What a call does once it is accepted is in methods.py, the form of a sheet in editions.py.
# docs/REFERENCE.md says the same in words.
# It shares nothing with the proved code, so that a test which compares the two can find a fault in either.
# Numbers are integers from 0 on; a scratch buffer and rows are lists of bytes, a table too, but that a sheet's may have larger entries; a log is
# a list of 32-bit entries.
import itertools
from collections import Counter, namedtuple

import editions
import methods

# The numbers of a logged or plain call, in the order of the bench print's case line.
Case = namedtuple("Case", "method n m x0 r1 r2 s1 s2 r3 b")


# Splitting, joining, key addition and the linear layer.


def fits(width, numbers):
    return all(number < 2**width for number in numbers)


def width_refusal(width, numbers):
    if not 1 <= width <= 8:
        return 3
    if not fits(width, numbers):
        return 10
    return 0


def split(width, secret, mask1, mask2):
    refusal = width_refusal(width, [secret, mask1, mask2])
    if refusal:
        return refusal, 0, 0, 0
    return 0, secret ^ mask1 ^ mask2, mask1, mask2


def join(width, share1, share2, share3):
    refusal = width_refusal(width, [share1, share2, share3])
    if refusal:
        return refusal, 0
    return 0, share1 ^ share2 ^ share3


def add_key(width, share1, share2, share3, key1, key2, key3):
    refusal = width_refusal(width, [share1, share2, share3, key1, key2, key3])
    if refusal:
        return refusal, 0, 0, 0
    return 0, share1 ^ key1, share2 ^ key2, share3 ^ key3


def layer_refusal(input_width, output_width, rows, constant, shares):
    if not 1 <= input_width <= 8:
        return 3
    if not 1 <= output_width <= input_width:
        return 4
    if len(rows) != output_width:
        return 8
    if not fits(input_width, rows) or not fits(output_width, [constant]):
        return 9
    if not fits(input_width, shares):
        return 10
    return 0


# Row i gives bit i: 1 when the row and the input have an odd number of ones in common.
def mapped(rows, value):
    return sum(bin(row & value).count("1") % 2 * 2**bit for bit, row in enumerate(rows))


def linear_layer(input_width, output_width, rows, constant, share1, share2, share3):
    refusal = layer_refusal(input_width, output_width, rows, constant, [share1, share2, share3])
    if refusal:
        return refusal, 0, 0, 0
    return 0, mapped(rows, share1) ^ constant, mapped(rows, share2), mapped(rows, share3)


# What goes by the method.

METHODS = (2, 3, 5)


# How many bytes of scratch it needs: it looks at no others.
def scratch_length(method, n):
    return {2: 1, 3: 1, 5: 2}[method] * 2**n


def log_length(method, n):
    return {2: 10 + 6 * 2**n, 3: 10 + 9 * 2**n, 5: 7 + 8 * 2**n}[method]


# What r3 and b may be: one that it does not draw is 0.
def drawn(method, n):
    inputs, bits, zero = range(2**n), range(2), range(1)
    return {2: (inputs, zero), 3: (inputs, bits), 5: (zero, zero)}[method]


# What a logged or plain call refuses.


# Whether all values that occur do so equally often, and the exclusive or of any three of them, repeats allowed, occurs as well.
def is_fit(table):
    values = set(table)
    equally_often = len({table.count(value) for value in values}) == 1
    pairs = {u ^ v for u in values for v in values}
    closed = all(pair ^ w in values for pair in pairs for w in values)
    return equally_often and closed


def table_refusal(method, n, m, table):
    if method not in METHODS:
        return 2
    if not 1 <= n <= 8:
        return 3
    if not 1 <= m <= 8:
        return 4
    if len(table) != 2**n:
        return 5
    if not fits(m, table):
        return 6
    if not is_fit(table):
        return 7
    return 0


def mask_refusal(case):
    if not fits(case.n, [case.x0, case.r1, case.r2, case.r3]):
        return 10
    if not fits(case.m, [case.s1, case.s2]):
        return 11
    r3s, bits = drawn(case.method, case.n)
    if case.r3 not in r3s or case.b not in bits:
        return 12
    return 0


def is_clean(scratch):
    return all(byte == 0 for byte in scratch)


def scratch_refusal(case, scratch):
    needed = scratch_length(case.method, case.n)
    if len(scratch) < needed:
        return 13
    if not is_clean(scratch[:needed]):
        return 19
    return 0


def plain_refusal(case, table, scratch):
    return table_refusal(case.method, case.n, case.m, table) or mask_refusal(case) or scratch_refusal(case, scratch)


# What a logged call refuses once its table has passed.
def other_refusal(case, scratch, log):
    refusal = mask_refusal(case) or scratch_refusal(case, scratch)
    if refusal:
        return refusal
    if len(log) < log_length(case.method, case.n):
        return 14
    return 0


def logged_refusal(case, table, scratch, log):
    return table_refusal(case.method, case.n, case.m, table) or other_refusal(case, scratch, log)


# A log entry: its kind in the high 16 bits, its value in the low.


def packed(kind, value):
    return kind * 65536 + value


def kind_of(entry):
    return entry // 65536


def value_of(entry):
    return entry % 65536


def run(case, table, scratch):
    by_method = {2: methods.run_method_2, 3: methods.run_method_3, 5: methods.run_method_5}
    return by_method[case.method](case, table, scratch)


# The refusal, the answer share, the count of entries, and scratch and log as the call leaves them.
def logged_call(case, table, scratch, log):
    refusal = logged_refusal(case, table, scratch, log)
    if refusal:
        return refusal, 0, 0, list(scratch), list(log)
    answer, scratch, pairs = run(case, table, scratch)
    entries = [packed(kind, value) for kind, value in pairs]
    return 0, answer, len(entries), scratch, entries + list(log[len(entries) :])


# The refusal, the answer share, the count 0, and scratch as the call leaves it.
def plain_call(case, table, scratch):
    refusal = plain_refusal(case, table, scratch)
    if refusal:
        return refusal, 0, 0, list(scratch)
    answer, scratch, _ = run(case, table, scratch)
    return 0, answer, 0, scratch


# The plain call as the C host gets it: the one 16-bit number, and scratch.
def exported_call(case, table, scratch):
    refusal, share, _, scratch = plain_call(case, table, scratch)
    return refusal * 256 + share, scratch


# A whole buffer set to zero, which makes a scratch fit for the next call.
def clear(buffer):
    return [0] * len(buffer)


# Counting over the choices of masks.


# Every choice of masks for an input, as the case that it makes.
def choices(method, n, m, secret):
    inputs, outputs = range(2**n), range(2**m)
    r3s, bits = drawn(method, n)
    for r1, r2, r3, s1, s2, b in itertools.product(inputs, inputs, r3s, outputs, outputs, bits):
        yield Case(method, n, m, secret ^ r1 ^ r2, r1, r2, s1, s2, r3, b)


# The values that each position of the log shows, one for each choice of masks. The table need not be one that a call accepts.
def shown_values(table, method, n, m, secret):
    scratch = [0] * scratch_length(method, n)
    logs = (run(case, table, scratch)[2] for case in choices(method, n, m, secret))
    values = (bytes(value for _, value in log) for log in logs)
    return [bytes(column) for column in zip(*values)]


# How many choices leave each pair of values at positions i and j.
def pair_counts(table, method, n, m, secret, i, j):
    shown = shown_values(table, method, n, m, secret)
    return Counter(zip(shown[i], shown[j]))


# The bench print: what the program writes for an input. A table entry above 255 is no byte, and too large for every m that is
# let in.
def bench(text):
    sheet = editions.read_sheet(editions.NEW, text, Case)
    if sheet is None:
        return editions.print_line(1)
    case, table = sheet
    refusal, share, count, _, log = logged_call(case, table, [0] * scratch_length(5, 8), [0] * log_length(3, 8))
    if refusal:
        return editions.print_line(refusal)
    lines = [editions.print_line(at, kind_of(log[at]), value_of(log[at])) for at in range(count)]
    return b"".join(lines) + editions.print_line(0, share, count)


# What a program that reads a case sheet makes of an input: the refusal, 1 where it has another form, the answer share and the log. A table
# entry above 255 is no byte, and too large for every m that is let in.
def sheet_call(text):
    sheet = editions.read_sheet(editions.NEW, text, Case)
    if sheet is None:
        return 1, 0, []
    case, table = sheet
    refusal, share, count, _, log = logged_call(case, table, [0] * scratch_length(5, 8), [0] * log_length(3, 8))
    return refusal, share, log[:count]
