# Holds the model's splitting, joining, key addition and linear layer to what is required of them (docs/REFERENCE.md). Each group yields a
# name, what the model says and what it should say.
import itertools

import model

# The linear layer of P11; its arguments are n, m, the rows, the constant and three shares.
P11 = [3, 3, [3, 6, 5], 1, 7, 1, 3]
# A layer with m below n.
NARROW = [3, 2, [7, 4], 3, 7, 7, 7]


# The arguments with the one in a place replaced.
def put(arguments, place, value):
    return arguments[:place] + [value] + arguments[place + 1 :]


def bench_sheet():
    yield "P11", model.linear_layer(*P11), (0, 1, 5, 6)
    yield "P11 joined", model.join(3, 1, 5, 6), (0, 2)


def splitting_and_joining():
    yield "split by hand", model.split(8, 0b11110000, 0b11001100, 0b10101010), (0, 0b10010110, 0b11001100, 0b10101010)
    for n in (1, 2, 8):
        numbers = range(2**n) if n < 8 else (0, 1, 85, 170, 254, 255)
        for secret, r1, r2 in itertools.product(numbers, repeat=3):
            shares = model.split(n, secret, r1, r2)
            yield f"split {secret} by {r1} and {r2}", (shares[0], shares[2:]), (0, (r1, r2))
            yield f"split {secret} by {r1} and {r2}, joined", model.join(n, *shares[1:]), (0, secret)


def key_addition():
    yield "key by hand", model.add_key(3, 1, 2, 4, 7, 3, 5), (0, 6, 1, 1)
    for shares in itertools.product(range(2), repeat=3):
        for key in itertools.product(range(2), repeat=3):
            added = model.add_key(1, *shares, *key)
            wanted = model.join(1, *shares)[1] ^ model.join(1, *key)[1]
            yield f"key {key} on {shares}, joined", model.join(1, *added[1:]), (0, wanted)
            yield f"key {key} on {shares}", model.add_key(1, *added[1:], *key), (0, *shares)


# The map by columns: bit j of the input brings in bit j of every row.
def image(rows, value):
    bits = [value >> j & 1 for j in range(8)]
    return sum(sum(row >> j & bit for j, bit in enumerate(bits)) % 2 << i for i, row in enumerate(rows))


def layer():
    yield "all ones, even", model.linear_layer(2, 1, [3], 0, 3, 0, 0), (0, 0, 0, 0)
    yield "three ones, odd", model.linear_layer(3, 1, [7], 0, 7, 0, 0), (0, 1, 0, 0)
    yield "constant alone", model.linear_layer(*NARROW[:4], 0, 0, 0), (0, 3, 0, 0)
    yield "width 8", model.linear_layer(8, 8, [1 << i for i in range(8)], 255, 255, 129, 66), (0, 0, 129, 66)
    for _, _, rows, constant, *_ in (P11, NARROW):
        for shares in itertools.product(range(8), (0, 3, 5), (1, 6)):
            refusal, *mapped = model.linear_layer(3, len(rows), rows, constant, *shares)
            _, secret = model.join(3, *shares)
            yield f"layer {rows} of {shares}", [refusal, *mapped[1:]], [0, *(image(rows, share) for share in shares[1:])]
            yield f"layer {rows} of {shares}, joined", model.join(3, *mapped), (0, image(rows, secret) ^ constant)


# Each number of a width in turn just inside and just outside, with the refusal that the width itself meets before it.
def width_bounds():
    for name, inputs, zeros in (("split", 3, 3), ("join", 3, 1), ("add_key", 6, 3)):
        call = getattr(model, name)
        for n in (0, 9, 255, 2**32 - 1):
            yield f"{name} at width {n}", call(n, *[0] * inputs), (3, *[0] * zeros)
            yield f"{name} at width {n}, too large", call(n, *[2**9] * inputs), (3, *[0] * zeros)
        for n in range(1, 9):
            for place in range(inputs):
                yield f"{name}, place {place} at {n}, inside", call(n, *put([1] * inputs, place, 2**n - 1))[0], 0
                refused = call(n, *put([1] * inputs, place, 2**n))
                yield f"{name}, place {place} at {n}, outside", refused, (10, *[0] * zeros)


# Faults of a layer's arguments, in the order of the checks: the refusal, the place of the argument and what stands there.
FAULTS = [
    (3, 0, 0),
    (3, 0, 9),
    (4, 1, 0),
    (4, 1, 9),
    (8, 2, []),
    (8, 2, [7]),
    (8, 2, [7, 4, 1]),
    (8, 2, [8, 4, 1]),
    (9, 2, [8, 4]),
    (9, 2, [7, 8]),
    (9, 3, 4),
    (10, 4, 8),
    (10, 5, 8),
    (10, 6, 8),
]


# Each fault with what is just inside, and any two faults in different places: the first in the order is returned, with zeros.
def layer_refusals():
    yield "layer, accepted", model.linear_layer(*NARROW), (0, 0, 3, 3)
    for n in range(1, 9):
        yield f"n = m = {n}", model.linear_layer(n, n, [1] * n, 1, 1, 1, 1)[0], 0
        for m in range(n + 1, 10):
            yield f"n = {n}, m = {m}", model.linear_layer(n, m, [1] * m, 1, 1, 1, 1), (4, 0, 0, 0)
    for refusal, place, value in FAULTS:
        faulty = put(NARROW, place, value)
        yield f"layer, {value} in place {place}", model.linear_layer(*faulty), (refusal, 0, 0, 0)
        for other, place2, value2 in FAULTS:
            if place2 > place:
                got = model.linear_layer(*put(faulty, place2, value2))
                yield f"layer, {value} in place {place}, {value2} in {place2}", got, (min(refusal, other), 0, 0, 0)


GROUPS = (bench_sheet, splitting_and_joining, key_addition, layer, width_bounds, layer_refusals)
