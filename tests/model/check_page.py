# Holds the model's page to the words of its request. Each group yields a name, what the model says and what it should say.
import random
from collections import Counter

import model
import page
import sheets
from check_methods import log_length, said
from check_print import malformed
from document import KINDS, OLD_SAMPLE_INPUT, SAMPLE_INPUT, TABLE_A
from model import Case
from sheets import P2, P2_BY_5, P3, sheet

# P1's page, whole. Two entries stand in its last entry line, and 48 spaces behind them.
P1_PAGE = b"""\
     0  10     0     1   1     1     2   2     0     3   3     0     4   4     1
     5   5     1     6   6     0     7   7     0     8   8     0     9   9     0
    10  11     0    11  12     1    12  13     1    13  14     0    14   8     1
    15   9     1    16  11     1    17  12     0    18  13     0    19  14     1
    20   5     1    21  15     1%s
     1         1
     2         1
     3         1
     4         1
     5         2
     6         1
     7         1
     8         2
     9         2
    10         1
    11         2
    12         2
    13         2
    14         2
    15         1
              22
""" % (48 * b" ")

# The end of a page whose 135 entries fill their lines.
FULL = Case(method=5, n=4, m=4, x0=5, r1=3, r2=12, s1=1, s2=10, r3=0, b=0)
FULL_END = b"""
   125   6    14   126  10     2   127  11     0   128  12    10   129   6    15
   130  10     3   131  11     1   132  12    11   133   1     5   134  13     1
     1         2
     2         1
     3         1
     4         1
     5         1
     6        32
     7        16
     8        16
     9        16
    10        16
    11        16
    12        16
    13         1
             135
"""

# The end of the longest page: four entries stand in its last entry line, and 16 spaces behind them.
LONGEST = Case(method=3, n=8, m=8, x0=255, r1=128, r2=127, s1=1, s2=2, r3=3, b=1)
LONGEST_END = b"""
  2305   9   124  2306  17     3  2307  10     1  2308  12     0  2309  13     0
  2310  14     1  2311  15     3  2312   6     1  2313  16     3%s
     1         1
     2         1
     3         1
     4         1
     5         1
     6         2
     7       256
     8       256
     9       256
    10       256
    11         1
    12       256
    13       256
    14       256
    15       256
    16         1
    17       256
    18         1
            2314
""" % (16 * b" ")


def by_hand():
    yield "P1", page.page(SAMPLE_INPUT), P1_PAGE
    for name, case, table, end, length in (
        ("lines that are full", FULL, range(16), FULL_END, 27 * 81 + 14 * 17),
        ("the longest", LONGEST, range(256), LONGEST_END, 463 * 81 + 19 * 17),
    ):
        printed = page.page(sheet(case, table))
        yield f"the end of {name}", printed[-len(end) :], end
        yield f"the length of {name}", len(printed), length


# The records of entry lines: what stands in their fields of 16 columns, but for those that are spaces behind the last.
def records(lines):
    text = b"".join(lines).rstrip(b" ")
    fields = [text[at : at + 16] for at in range(0, len(text), 16)]
    return [(int(field[:6]), int(field[6:10]), int(field[10:])) for field in fields]


# A page's lines: those of 80 columns in front, and what stands below them.
def parts(text):
    lines = text.splitlines()
    entry_count = sum(len(line) == 80 for line in lines)
    return lines[:entry_count], lines[entry_count:]


# The lines of the bench print but its last, as numbers.
def bench_records(text):
    return [tuple(map(int, line.split())) for line in model.bench(text).splitlines()[:-1]]


# A case for each method and n, with the smallest, the same and the largest m.
def accepted():
    chance = random.Random(9)
    for method in KINDS:
        for n in range(1, 9):
            for m in sorted({1, n, 8}):
                yield f"method {method}, n = {n}, m = {m}", *sheets.accepted(chance, method, n, m)


# How often each kind occurs, by the lists of kinds.
def figures(method, n):
    head, passes, end = KINDS[method]
    return sorted(Counter([*head, *(kind for one in passes for kind in one * 2**n), *end]).items())


def contents():
    for name, case, table in accepted():
        text = sheet(case, table)
        lines, below = parts(page.page(text))
        length = log_length(case.method, case.n)
        yield f"{name}: entry lines", len(lines), (length + 4) // 5
        yield f"{name}: records", records(lines), bench_records(text)
        yield f"{name}: said", records(lines), [(at, kind, value) for at, (kind, value) in enumerate(said(case, table))]
        columns = b"".join(b"%6d%4d%6d" % record for record in records(lines))
        yield f"{name}: columns", b"".join(lines), columns + (-length % 5) * 16 * b" "
        yield f"{name}: figures", [(int(line[:6]), int(line[6:])) for line in below[:-1]], figures(case.method, case.n)
        yield f"{name}: total", below[-1], b"      %10d" % length


# What holds of every page, whatever the log.
def page_laws(name, text):
    lines, below = parts(text)
    *kinds, total = below
    often = {int(line[:6]): int(line[6:]) for line in kinds}
    yield f"{name}: every line ends", text.count(b"\n"), len(lines) + len(below)
    yield f"{name}: its last line ends", text[-1:], b"\n"
    yield f"{name}: nothing but digits and spaces", set(text) - set(b" 0123456789\n"), set()
    yield f"{name}: columns below", {len(line) for line in below}, {16}
    yield f"{name}: positions", [at for at, _, _ in records(lines)], list(range(len(records(lines))))
    yield f"{name}: each kind's figure", often, dict(Counter(kind for _, kind, _ in records(lines)))
    yield f"{name}: rising", list(often), sorted(often)
    yield f"{name}: right-justified", kinds, [b"%6d%10d" % line for line in often.items()]
    yield f"{name}: the total of the figures", int(total), sum(often.values())
    yield f"{name}: the total of the records", int(total), len(records(lines))
    yield f"{name}: six spaces", total[:6], b"      "


# Whether the last entry line is short goes by the log's length.
def laws():
    full = []
    for name, case, table in accepted():
        text = page.page(sheet(case, table))
        yield from page_laws(name, text)
        if len(records(parts(text)[0])) % 5 == 0:
            full.append((case.method, case.n))
    yield "pages whose last line is full", sorted(set(full)), [(5, 4), (5, 8)]


# Every refusal that a case sheet can meet.
REFUSED = [
    (b"     1\n", b""),
    (b"     1\n", SAMPLE_INPUT[:-1]),
    (b"     1\n", OLD_SAMPLE_INPUT),
    (b"     2\n", sheet(P2._replace(method=4), TABLE_A)),
    (b"     3\n", sheet(P2._replace(n=0), TABLE_A)),
    (b"     3\n", sheet(P2._replace(n=9), TABLE_A)),
    (b"     4\n", sheet(P2._replace(m=9), TABLE_A)),
    (b"     5\n", sheet(P2, [])),
    (b"     5\n", sheet(P2, TABLE_A[:3])),
    (b"     6\n", sheet(P2, [4, 0, 2, 1])),
    (b"     6\n", sheet(P2, [256, 0, 2, 1])),
    (b"     7\n", sheet(P2, [2, 0, 3, 3])),
    (b"    10\n", sheet(P2._replace(x0=4), TABLE_A)),
    (b"    11\n", sheet(P2._replace(s1=4), TABLE_A)),
    (b"    12\n", sheet(P3._replace(b=2), TABLE_A)),
    (b"    12\n", sheet(P2_BY_5._replace(r3=1), TABLE_A)),
]


def refusals():
    for number, text in REFUSED:
        yield f"{number} for {text}", page.page(text), number
    for name, text in malformed(6):
        yield name, page.page(text), b"     1\n"


# A refused input prints what the bench print makes of it; an accepted one has the bench print's lines as its records.
def as_bench():
    for text in (*sheets.page_sheets(), *sheets.small_tables()):
        printed, bench = page.page(text), model.bench(text)
        if len(bench) == 7:
            yield f"{text} refused", printed, bench
        else:
            yield f"{text} printed", records(parts(printed)[0]), bench_records(text)


# The sheets of the page's tests have each method with each n, so every length that a log can have; 0 is that of a refused one.
def lengths():
    found = {len(records(parts(page.page(text))[0])) for text in sheets.page_sheets()}
    yield "lengths of logs among the sheets", found, {0, *(log_length(method, n) for method in KINDS for n in range(1, 9))}
    yield "entries that they leave for the last line", {length % 5 for length in found if length}, {0, 1, 2, 3, 4}


GROUPS = (by_hand, contents, laws, refusals, as_bench, lengths)
