# The S-box of FIPS 197 by its rule: the affine map of the inverse in GF(2^8), with 0 for the inverse of 0.


# The product modulo x^8 + x^4 + x^3 + x + 1.
def times(left, right):
    product = 0
    while right:
        if right & 1:
            product ^= left
        left <<= 1
        if left & 256:
            left ^= 0x11B
        right >>= 1
    return product


def inverse(byte):
    return next((other for other in range(256) if times(byte, other) == 1), 0)


# Bit i is the exclusive or of bits i, i + 4, i + 5, i + 6 and i + 7 modulo 8, and of bit i of 63 (hexadecimal).
def affine(byte):
    bits = [sum(byte >> (i + j) % 8 for j in (0, 4, 5, 6, 7)) % 2 for i in range(8)]
    return sum(bit << i for i, bit in enumerate(bits)) ^ 0x63


def table():
    return [affine(inverse(byte)) for byte in range(256)]


# As Figure 7 has it: 16 rows of 16 bytes, in hexadecimal.
def printed():
    entries = ["%02x" % entry for entry in table()]
    rows = [entries[at : at + 16] for at in range(0, 256, 16)]
    return "".join(" ".join(row) + "\n" for row in rows).encode()
