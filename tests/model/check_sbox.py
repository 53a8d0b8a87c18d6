# Holds the model's S-box to FIPS 197. Each group yields a name, what the model says and what it should say.
import sbox


# FIPS 197: the products of section 4.2, the example of section 5.1.1, and the first and last row of Figure 7.
def figure_7():
    yield "57 times 83", sbox.times(0x57, 0x83), 0xC1
    yield "57 times 13", sbox.times(0x57, 0x13), 0xFE
    table = sbox.table()
    yield "S of 53", table[0x53], 0xED
    yield "each byte once", sorted(table), list(range(256))
    rows = sbox.printed().split(b"\n")
    yield "rows", [len(row) for row in rows], 16 * [47] + [0]
    yield "first row", rows[0], b"63 7c 77 7b f2 6b 6f c5 30 01 67 2b fe d7 ab 76"
    yield "last row", rows[15], b"8c a1 89 0d bf e6 42 68 41 99 2d 0f b0 54 bb 16"


GROUPS = (figure_7,)
