# The wall-cabinet page in plain Python, written from the request alone: the log of a case sheet's call in entries of 16 columns, five a
# line, and below them how often each kind occurs, and the total. It shares nothing with the proved code.
from collections import Counter

import editions
import model
from model import kind_of, value_of

PER_LINE = 5
WIDTH = 80


# Position, kind and value.
def entry_text(at, entry):
    return b"%6d%4d%6d" % (at, kind_of(entry), value_of(entry))


# The last line may be short, and is filled with spaces; none is empty.
def entry_lines(log):
    texts = [entry_text(at, log[at]) for at in range(len(log))]
    lines = [b"".join(texts[first : first + PER_LINE]) for first in range(0, len(texts), PER_LINE)]
    return [line.ljust(WIDTH) for line in lines]


# A kind that does not occur has no line.
def kind_lines(log):
    often = Counter(map(kind_of, log))
    return [b"%6d%10d" % (kind, often[kind]) for kind in sorted(often)]


def total_line(log):
    return b"      %10d" % len(log)


# What the program `page` writes for an input: the page, or a refusal's number alone.
def page(text):
    refusal, _, log = model.sheet_call(text)
    if refusal:
        return editions.print_line(refusal)
    lines = [*entry_lines(log), *kind_lines(log), total_line(log)]
    return b"".join(line + b"\n" for line in lines)
