# A whole AES-128 frame in plain Python, written from FIPS 197 and the requirements alone, without looking at the code: the cipher itself,
# and the frame on three shares. It shares nothing with the proved code; a lookup is that of model.py, the screening that of screening.py.
# A block is a list of 16 bytes, byte r + 4c being row r of column c; a word is a list of 4. What is shared is a list of three such lists.
from collections import namedtuple

import model
import sbox
import screening

SBOX = sbox.table()
# Of a round of the cipher or of the frame: the state at its start, after each of its three steps (None where columns are not mixed), and
# the key that ends it. Of the frame's also the scratch that its last lookup leaves.
Round = namedtuple("Round", "start substituted shifted mixed key scratch", defaults=[None])


# The steps of the cipher.


def added(left, right):
    return [one ^ other for one, other in zip(left, right, strict=True)]


# Row r moves r columns to the left.
def shift_rows(block):
    return [block[r + 4 * ((c + r) % 4)] for c in range(4) for r in range(4)]


def mix_column(column):
    turned = [column[r:] + column[:r] for r in range(4)]
    return [sbox.times(2, a) ^ sbox.times(3, b) ^ c ^ d for a, b, c, d in turned]


def mix_columns(block):
    return [byte for at in range(0, 16, 4) for byte in mix_column(block[at : at + 4])]


# The last word of a key, as the key expansion substitutes it.
def rotated_word(key):
    return [key[13], key[14], key[15], key[12]]


def round_constant(number):
    return 1 if number == 1 else sbox.times(2, round_constant(number - 1))


def constant_added(word, number):
    return [word[0] ^ round_constant(number), *word[1:]]


# The next round key: its first word is the last key's and the given one, each later word the last key's and the one before it.
def next_key(key, word):
    words = [word]
    for at in range(0, 16, 4):
        words.append(added(key[at : at + 4], words[-1]))
    return sum(words[1:], [])


# The cipher.


def cipher_rounds(plaintext, key):
    state = added(plaintext, key)
    for number in range(1, 11):
        key = next_key(key, constant_added([SBOX[byte] for byte in rotated_word(key)], number))
        substituted = [SBOX[byte] for byte in state]
        shifted = shift_rows(substituted)
        mixed = mix_columns(shifted) if number < 10 else None
        yield Round(state, substituted, shifted, mixed, key)
        state = added(mixed or shifted, key)


def cipher(plaintext, key):
    *_, last = cipher_rounds(plaintext, key)
    return added(last.shifted, last.key)


# The frame. The random bytes are r1 and r2 of the plaintext, 16 each, then s1, s2 and r3 of each lookup.


def shares_of(plaintext, random):
    r1, r2 = list(random[:16]), list(random[16:32])
    return [added(added(plaintext, r1), r2), r1, r2]


# s1, s2 and r3 of the twenty lookups of a round: four of the rotated key word, then sixteen of the state.
def masks_of(random, number):
    lookups = [random[at : at + 3] for at in range(32, 632, 3)]
    return lookups[20 * (number - 1) : 20 * number]


def add_shares(shared, others):
    return [added(*pair) for pair in zip(shared, others, strict=True)]


# The first 256 bytes of scratch are cleared, what stands behind them stays.
def cleared(scratch):
    return [0] * 256 + list(scratch[256:])


# One byte by method 2 on clean scratch: its new shares, and scratch as the lookup leaves it.
def look_up(shares, masks, scratch):
    x0, r1, r2 = shares
    s1, s2, r3 = masks
    answer, scratch, _ = model.run(model.Case(2, 8, 8, x0, r1, r2, s1, s2, r3, 0), SBOX, scratch)
    return (answer, s1, s2), scratch


# The bytes of a word or of a state, one after the other. Scratch is cleared before each.
def substitute(shared, masks, scratch):
    found = []
    for shares, of_lookup in zip(zip(*shared), masks, strict=True):
        new_shares, scratch = look_up(shares, of_lookup, cleared(scratch))
        found.append(new_shares)
    return [list(share) for share in zip(*found)], scratch


# The next round key, in shares. The round constant goes to the first.
def next_shared_key(key, masks, number, scratch):
    word, scratch = substitute([rotated_word(share) for share in key], masks, scratch)
    word[0] = constant_added(word[0], number)
    return [next_key(*pair) for pair in zip(key, word)], scratch


def frame_rounds(plaintext, key, random, scratch):
    state = add_shares(shares_of(plaintext, random), key)
    for number in range(1, 11):
        masks = masks_of(random, number)
        key, scratch = next_shared_key(key, masks[:4], number, scratch)
        substituted, scratch = substitute(state, masks[4:], scratch)
        shifted = [shift_rows(share) for share in substituted]
        mixed = [mix_columns(share) for share in shifted] if number < 10 else None
        yield Round(state, substituted, shifted, mixed, key, scratch)
        state = add_shares(mixed or shifted, key)


def frame_refusal(random, scratch):
    if len(random) != 632:
        return 26
    if screening.report(random) is not None:
        return 27
    if len(scratch) < 256:
        return 13
    return 0


# The refusal, and the three result shares and scratch as the call leaves them.
def encrypt_frame(plaintext, key, random, scratch, result):
    refusal = frame_refusal(random, scratch)
    if refusal:
        return refusal, [list(share) for share in result], list(scratch)
    *_, last = frame_rounds(plaintext, key, random, scratch)
    return 0, add_shares(last.shifted, last.key), cleared(last.scratch)
