# The frames for the program test_frames, and what the model says of each.
# A frame is a record of 704 bytes: the plaintext and the three shares of the key, 16 bytes each, then as little-endian u16 the numbers of
# random bytes and of scratch bytes that are lent, the first scratch byte and what each later one has more than the one before it, and from
# byte 70 the random bytes. The answers are one line a record: the refusal and the bytes of the three shares, then of the lent scratch after
# the call a checksum of the first 256 bytes, and whole what stands behind them.
import random
import struct
from collections import namedtuple

import fips_197
import frame
from call_records import checksum
from runs import in_turn, placed, spreads

RANDOM_LENGTH, SCRATCH_LENGTH = 632, 256
# The most that the program can lend.
LONGEST_RANDOM, LONGEST_SCRATCH = 634, 300
ZEROS = [[0] * 16] * 3
# Random bytes that are accepted.
COUNTED = in_turn(251, RANDOM_LENGTH)

# A frame's scratch is its length, its first byte, and what each later byte has more than the one before it.
Frame = namedtuple("Frame", "plaintext key random scratch")

chance = random.Random()


def drawn(length):
    return list(chance.randbytes(length))


def drawn_frame(scratch_length=SCRATCH_LENGTH):
    return Frame(drawn(16), [drawn(16) for _ in range(3)], drawn(RANDOM_LENGTH), (scratch_length, *drawn(2)))


# The same frame with so many random bytes; those behind its own are drawn.
def with_random(lent, length):
    return lent._replace(random=(lent.random + drawn(LONGEST_RANDOM))[:length])


def with_scratch(lent, length):
    return lent._replace(scratch=(length, *lent.scratch[1:]))


# FIPS 197, appendices B and C.1, with the key in its first share alone, and in three.
def fips_frames():
    for plaintext, whole in ((fips_197.PLAINTEXT_B, fips_197.KEY_B), (fips_197.PLAINTEXT_C, fips_197.KEY_C)):
        yield Frame(list(plaintext), [list(whole), *ZEROS[1:]], COUNTED, (SCRATCH_LENGTH, 0, 0))
        other = drawn_frame()
        masked = frame.added(frame.added(whole, other.key[1]), other.key[2])
        yield other._replace(plaintext=list(plaintext), key=[masked, *other.key[1:]])


# A frame, and the same with another lowest bit of one random byte. It comes out in the shares where it belongs, or not at all: r1 and r2
# of the plaintext; s1, s2 and r3 of the first lookup, and s1 of the first of the state; s1 of the last round's key word; masks of the last
# round's state.
def lone_masks():
    lent = Frame(list(range(16)), [list(range(16)), *ZEROS[1:]], COUNTED, (SCRATCH_LENGTH, 255, 0))
    yield lent
    for place in (0, 31, 32, 33, 34, 44, 572, 584, 585, 629, 630, 631):
        yield lent._replace(random=COUNTED[:place] + [COUNTED[place] ^ 1] + COUNTED[place + 1 :])


def drawn_frames():
    for length in (256, 256, 257, 299, 300, 300):
        yield drawn_frame(length)


# Scratch of zeros, of ones, and of one byte throughout; and bytes behind that look like what is cleared, or do not.
def scratches():
    for scratch in ((256, 0, 0), (256, 255, 0), (300, 165, 0), (300, 0, 1), (300, 0, 0)):
        yield drawn_frame()._replace(scratch=scratch)


# Each refusal with its neighbours, on scratch that would show a write; and both faults together.
def refusals():
    for length in (0, 1, 600, 631, 632, 633, 634):
        yield with_random(drawn_frame(LONGEST_SCRATCH), length)
    for length in (0, 1, 255, 256):
        yield with_scratch(drawn_frame(), length)
    for random_length, scratch_length in ((0, 0), (631, 255), (633, 255), (633, 0)):
        yield with_scratch(with_random(drawn_frame(), random_length), scratch_length)


# 20 of a value in one window, then 21; 21 within 512 bytes, in the first, in one in the middle and in the last of the 121 windows, then
# within 513.
def windows():
    few = in_turn(26, RANDOM_LENGTH)
    for start in (0, 300, 611):
        yield from (placed(few, 200, range(start, start + times)) for times in (20, 21))
    for start, length in ((0, 512), (60, 512), (120, 512), (0, 513), (60, 513), (119, 513)):
        yield from (placed(few, 200, *ranges) for ranges in spreads(start, length))


# Sources that give one value, few values in turn, some bits always 0, one value too often, or that stick in the end.
def sources():
    yield from ([0] * RANDOM_LENGTH, [255] * RANDOM_LENGTH, in_turn(25, RANDOM_LENGTH), in_turn(26, RANDOM_LENGTH))
    for bits in (1, 128 + 64 + 32, 128 + 64):
        yield [byte & ~bits for byte in drawn(RANDOM_LENGTH)]
    yield [byte if chance.random() < 0.96 else 7 for byte in drawn(RANDOM_LENGTH)]
    yield from (drawn(RANDOM_LENGTH - times) + [7] * times for times in (18, 25))


def screened():
    for run in (*windows(), *sources()):
        yield drawn_frame(LONGEST_SCRATCH)._replace(random=run)


# A faulty run beside what is refused before and after it.
def faulty_runs():
    for run in ([0] * LONGEST_RANDOM, in_turn(25, LONGEST_RANDOM)):
        for random_length, scratch_length in ((631, 256), (633, 256), (631, 255), (633, 0), (632, 255), (632, 0), (632, 300)):
            yield drawn_frame(scratch_length)._replace(random=run[:random_length])


def record(lent):
    blocks = map(bytes, (lent.plaintext, *lent.key))
    return struct.pack("<16s16s16s16sHHBB634s", *blocks, len(lent.random), *lent.scratch, bytes(lent.random))


def answer(lent):
    length, first, step = lent.scratch
    scratch = [(first + step * place) % 256 for place in range(length)]
    refusal, shares, scratch = frame.encrypt_frame(lent.plaintext, lent.key, lent.random, scratch, ZEROS)
    return [refusal, *sum(shares, []), checksum(scratch[:SCRATCH_LENGTH]), *scratch[SCRATCH_LENGTH:]]


# The same frames in every run.
def cases():
    chance.seed(1)
    for kind in (fips_frames, lone_masks, drawn_frames, scratches, refusals, screened, faulty_runs):
        yield from kind()
