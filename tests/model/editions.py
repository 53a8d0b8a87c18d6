# The form of a sheet in its two editions, old and new, in plain Python, written from the requirements alone. It shares nothing with the
# proved code.
import re
from collections import namedtuple

# How many columns a number takes, and the largest that may stand there.
Edition = namedtuple("Edition", "columns largest")
OLD = Edition(4, 255)
NEW = Edition(6, 65535)

NUMBER = re.compile(rb" *(0|[1-9][0-9]*)")


# The numbers that fill a line, each in its columns, or None where the line is of another form.
def line_numbers(edition, line, count):
    if len(line) != edition.columns * count:
        return None
    fields = [NUMBER.fullmatch(line[at : at + edition.columns]) for at in range(0, len(line), edition.columns)]
    if not all(fields):
        return None
    numbers = [int(field.group(1)) for field in fields]
    return numbers if max(numbers) <= edition.largest else None


# The numbers of a sheet's first line, named as the given type names them, and its table; None where the sheet has another form. Entries are
# as wide as they stand there: whether they are bytes is not a question of form.
def read_sheet(edition, text, form):
    first, *others = text.split(b"\n")
    if not others or others.pop() != b"" or len(others) > 256:
        return None
    numbers = line_numbers(edition, first, len(form._fields))
    entries = [line_numbers(edition, line, 1) for line in others]
    if numbers is None or None in entries:
        return None
    return form(*numbers), [entry for [entry] in entries]


# What programs write has the new edition's columns, but for counts and sheets of the old one.
def print_line(*numbers, columns=NEW.columns):
    return b"".join(b"%*d" % (columns, number) for number in numbers) + b"\n"


# A sheet of this edition.
def print_sheet(edition, first, table):
    return b"".join(print_line(*numbers, columns=edition.columns) for numbers in (first, *((entry,) for entry in table)))
