# Tables for the cases of all calls: fit ones, and ones that are just not. Which of them are fit is the model's to say.
import itertools


# All tables of these widths, for small ones.
def every(n, m):
    return map(list, itertools.product(range(2**m), repeat=2**n))


# 2^d values below 2^m, among which the exclusive or of any three is: an offset, and with it all sums of d independent steps.
def coset(chance, m, d):
    values = [chance.randrange(2**m)]
    while len(values) < 2**d:
        step = chance.randrange(1, 2**m)
        if values[0] ^ step not in values:
            values += [value ^ step for value in values]
    return values


# These values, over and over, in random order.
def mixed(chance, n, values):
    table = values * (2**n // len(values))
    chance.shuffle(table)
    return table


# A fit table of 2^d values.
def fit(chance, n, m, d):
    return mixed(chance, n, coset(chance, m, d))


# Of as many values as the widths allow: balanced where m is at most n, and without equal entries where m is at least n.
def full(chance, n, m):
    return fit(chance, n, m, min(n, m))


# One in two is full: where many entries are equal, a wrong place may go unseen.
def any_fit(chance, n, m):
    return fit(chance, n, m, chance.choice((min(n, m), chance.randint(0, min(n, m)))))


def absent(chance, m, values):
    return chance.choice([value for value in range(2**m) if value not in values])


def with_entry(table, place, entry):
    return table[:place] + [entry] + table[place + 1 :]


# What follows is not fit, where n is 2 or more, and m for the last two 3 or more.


# One entry is another of the values.
def one_moved(chance, n, m):
    table = fit(chance, n, m, chance.randint(1, min(n, m)))
    place = chance.randrange(2**n)
    return with_entry(table, place, chance.choice([value for value in table if value != table[place]]))


# One entry is none of the values.
def one_new(chance, n, m):
    table = fit(chance, n, m, chance.randint(0, min(n, m - 1)))
    return with_entry(table, chance.randrange(2**n), absent(chance, m, table))


# Of the values of a coset, half stand three times as often as the others.
def half_often(chance, n, m):
    values = coset(chance, m, chance.randint(1, min(n - 1, m)))
    return mixed(chance, n, 3 * values[::2] + values[1::2])


# Equally often, but one value of a coset is another one everywhere.
def one_replaced(chance, n, m):
    values = coset(chance, m, chance.randint(2, min(n, m - 1)))
    return mixed(chance, n, [absent(chance, m, values), *values[1:]])


def directions(values):
    return {value ^ values[0] for value in values}


# Equally often the values of two cosets, which have none in common and not the same directions.
def two_cosets(chance, n, m):
    d = chance.randint(1, min(n - 1, m - 2))
    one, other = coset(chance, m, d), coset(chance, m, d)
    while set(one) & set(other) or directions(one) == directions(other):
        other = coset(chance, m, d)
    return mixed(chance, n, one + other)


NOT_EVEN, NOT_CLOSED = (one_moved, one_new, half_often), (one_replaced, two_cosets)
