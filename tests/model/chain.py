# Two calls in a row in plain Python, written from the requirements alone. It shares nothing with the proved code.
# The first call's output shares go straight into the second: its answer is the second's x0, and its s1 and s2 are the second's r1 and r2.
# Tables, scratch and logs are as in model.py.
import functools
import itertools
from collections import namedtuple

import model

# What the second call has of its own.
Second = namedtuple("Second", "method n m s1 s2 r3 b")


# The second call's case, where the first has answered with a share.
def following(first, second, share):
    method, n, m, s1, s2, r3, b = second
    return model.Case(method, n, m, share, first.s1, first.s2, s1, s2, r3, b)


# Each is a pair: of the first call and of the second. Where the first's checks have passed, its answer is known and nothing is written yet.
def chain_refusal(first, second, tables, scratches, logs):
    refusal = model.table_refusal(first.method, first.n, first.m, tables[0])
    refusal = refusal or model.table_refusal(second.method, second.n, second.m, tables[1])
    if refusal:
        return refusal
    if first.m != second.n:
        return 18
    refusal = model.other_refusal(first, scratches[0], logs[0])
    if refusal:
        return refusal
    share, _, _ = model.run(first, tables[0], scratches[0])
    return model.other_refusal(following(first, second, share), scratches[1], logs[1])


# The refusal, the second share, both counts, and both scratches and both logs as the call leaves them.
def chained_call(first, second, tables, scratches, logs):
    refusal = chain_refusal(first, second, tables, scratches, logs)
    if refusal:
        return refusal, 0, 0, 0, *map(list, scratches), *map(list, logs)
    _, share, count, scratch, log = model.logged_call(first, tables[0], scratches[0], logs[0])
    case = following(first, second, share)
    _, share, second_count, second_scratch, second_log = model.logged_call(case, tables[1], scratches[1], logs[1])
    return 0, share, count, second_count, scratch, second_scratch, log, second_log


# Every choice of the masks that the second call draws.
def second_choices(method, n, m):
    for masks in itertools.product(range(2**m), range(2**m), *model.drawn(method, n)):
        yield Second(method, n, m, *masks)


# What a run on clean scratch answers, and the values that its log shows.
def shown_run(case, table):
    answer, _, log = model.run(case, table, [0] * model.scratch_length(case.method, case.n))
    return answer, bytes(value for _, value in log)


# The values that each position of the first log, and behind them each of the second, shows: one for each choice of both calls' masks.
# The widths are the first table's n, its m, which is the second's n, and the second's m. No table need be one that a call accepts. The
# second call's runs are kept: many choices have one in common.
def shown_values(methods, widths, tables, secret):
    second_run = functools.cache(lambda case: shown_run(case, tables[1]))
    values = []
    for first in model.choices(methods[0], *widths[:2], secret):
        share, shown = shown_run(first, tables[0])
        for second in second_choices(methods[1], *widths[1:]):
            values.append(shown + second_run(following(first, second, share))[1])
    return [bytes(column) for column in zip(*values)]
