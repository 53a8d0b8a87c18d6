# Which positions of a log, or of two, tell a stranger something of the input: their counts differ for two inputs.
# What is shown is a column of values for each position, one value for each choice of masks.
import itertools


# A column as one number for each value: a bit for each choice, 1 where the value is shown.
def planes(column):
    return {value: int(column.translate(bytes(48 + (byte == value) for byte in range(256))), 2) for value in set(column)}


# How often two positions show each pair of values.
def times(first, second):
    both = ((u, v, (plane & other).bit_count()) for u, plane in first.items() for v, other in second.items())
    return {(u, v): count for u, v, count in both if count}


# The pairs of positions whose counts differ for two inputs.
def differing(shown, other):
    shown, other = list(map(planes, shown)), list(map(planes, other))
    for i, j in itertools.combinations_with_replacement(range(len(shown)), 2):
        if times(shown[i], shown[j]) != times(other[i], other[j]):
            yield i, j
