# Case sheets of both editions for the tests of the converters. What each must print is the model's to say.
import random

import conversion
import sheets
from damage import damaged
from document import TABLE_A
from editions import NEW, OLD


# Those of this edition come first: the first two are legal in it. A wide number in a damaged sheet is no matter.
def all_sheets(edition):
    for one in (edition, OLD if edition == NEW else NEW):
        yield from sheets.all_sheets(one)
    yield from damaged(sheets.sheet(sheets.P2._replace(method=300), TABLE_A))
    yield from damaged(sheets.sheet(sheets.P2, [*TABLE_A[:3], 65535]))


def mutated(chance):
    return sheets.mutated(chance, chance.choice((OLD, NEW)))


# Numbers of sheets that both editions can write: those above, and any others.
def narrow(others):
    chance = random.Random(8)
    number = lambda: chance.randrange(2 ** chance.randint(0, 8))
    yield from sheets.narrow()
    for _ in range(others):
        yield [number() for _ in range(10)], [number() for _ in range(chance.choice((0, 1, 2, 4, chance.randint(0, 256), 256)))]


# What the gate's test program is run on, and what it prints of each.
def cases():
    return all_sheets(OLD)


def answer(text):
    return conversion.to_six_columns(text) + conversion.to_four_columns(text)
