# Holds the model's cipher to FIPS 197, and its frame to what is required of it (docs/REFERENCE.md). Each group yields a name, what the
# model says and what it should say.
import random
from unittest import mock

import fips_197
import frame
import model
from runs import in_turn, placed, spreads

# Where each byte comes from when rows are shifted: FIPS 197, Figure 8, read column by column.
SHIFTED_FROM = (0, 5, 10, 15, 4, 9, 14, 3, 8, 13, 2, 7, 12, 1, 6, 11)


# A frame that is accepted: a plaintext, three key shares, the random bytes, and scratch that holds anything.
def some_frame(seed, scratch_length=256):
    source = random.Random(seed)
    plaintext, *key = (list(source.randbytes(16)) for _ in range(4))
    return plaintext, key, list(source.randbytes(632)), list(source.randbytes(scratch_length))


def joined(shared):
    return shared and [one ^ two ^ three for one, two, three in zip(*shared, strict=True)]


# FIPS 197: the round constants of section 5.2, appendices A.1, B and C.1.
def cipher():
    yield "constants", [frame.round_constant(number) for number in range(1, 11)], [1, 2, 4, 8, 16, 32, 64, 128, 0x1B, 0x36]
    rounds = list(frame.cipher_rounds(fips_197.PLAINTEXT_B, fips_197.KEY_B))
    yield "A.1", [bytes(each.key) for each in rounds], fips_197.ROUND_KEYS_B[1:]
    yield "B, starts", [bytes(each.start) for each in rounds], fips_197.STARTS_B
    yield "B", bytes(frame.cipher(fips_197.PLAINTEXT_B, fips_197.KEY_B)), fips_197.CIPHERTEXT_B
    rounds = frame.cipher_rounds(fips_197.PLAINTEXT_C, fips_197.KEY_C)
    yield "C.1, rounds", [tuple(block and bytes(block) for block in each[:5]) for each in rounds], fips_197.ROUNDS_C
    yield "C.1", bytes(frame.cipher(fips_197.PLAINTEXT_C, fips_197.KEY_C)), fips_197.CIPHERTEXT_C


# A refused frame leaves everything as it was.
def refusals():
    plaintext, key, lent, _ = some_frame(1)
    result = [[7] * 16, [8] * 16, [9] * 16]
    for random_length in (0, 1, 600, 631, 633, 888, 1264):
        for scratch in ([], [5] * 255, [0] * 256, [5] * 300):
            got = frame.encrypt_frame(plaintext, key, (lent * 2)[:random_length], scratch, result)
            yield f"{random_length} random bytes, scratch of {len(scratch)}", got, (26, result, scratch)
    for scratch in ([], [0], [5] * 16, [0] * 255, [5] * 255):
        yield f"scratch of {len(scratch)}", frame.encrypt_frame(plaintext, key, lent, scratch, result), (13, result, scratch)


# A faulty run of random bytes is refused after a wrong number of them and before short scratch, and leaves everything as it was.
def faulty_runs():
    plaintext, key, lent, _ = some_frame(1)
    result = [[7] * 16, [8] * 16, [9] * 16]
    stuck_at_either_end = ([0] * 21 + lent[21:], lent[:-21] + [255] * 21)
    for run in ([0] * 632, [255] * 632, in_turn(25, 632), *stuck_at_either_end):
        for scratch in ([], [5] * 255, [0] * 256, [5] * 300):
            got = frame.encrypt_frame(plaintext, key, run, scratch, result)
            yield f"faulty run, scratch of {len(scratch)}", got, (27, result, scratch)
            for length in (0, 20, 21, 512, 631, 633):
                got = frame.encrypt_frame(plaintext, key, (run * 2)[:length], scratch, result)
                yield f"faulty run of {length}, scratch of {len(scratch)}", got, (26, result, scratch)


# 21 of a value in the first, in one in the middle and in the last of the 121 windows; and in none, which short scratch shows.
def windows():
    for start, length, refusal in ((0, 512, 27), (60, 512, 27), (120, 512, 27), (0, 513, 13), (60, 513, 13), (119, 513, 13)):
        for ranges in spreads(start, length):
            run = placed(in_turn(26, 632), 200, *ranges)
            yield f"within {length} bytes from {start} on, {ranges}", frame.frame_refusal(run, [0] * 255), refusal
    for run in (in_turn(26, 632), placed(in_turn(26, 632), 200, range(612, 632))):
        yield "20 in a window", frame.frame_refusal(run, [0] * 256), 0


# Scratch may hold anything. What stands behind its first 256 bytes stays.
def scratches():
    plaintext, key, lent, _ = some_frame(2)
    shares = frame.encrypt_frame(plaintext, key, lent, [0] * 256, key)[1]
    for scratch in ([1] * 256, [255] * 257, [*range(256), *range(44)]):
        wanted = 0, shares, [0] * 256 + scratch[256:]
        yield f"scratch of {len(scratch)}, taken", frame.encrypt_frame(plaintext, key, lent, scratch, key), wanted


# With the plaintext and key of FIPS 197, and of any frame, the shares join at each step of each round.
def joins():
    for seed in range(4):
        plaintext, key, lent, scratch = some_frame(seed)
        if seed < 2:
            plaintext, whole = ((fips_197.PLAINTEXT_B, fips_197.KEY_B), (fips_197.PLAINTEXT_C, fips_197.KEY_C))[seed]
            key[0] = joined([whole, *key[1:]])
        rounds = [[joined(shared) for shared in each[:5]] for each in frame.frame_rounds(plaintext, key, lent, scratch)]
        yield f"rounds of {seed}", rounds, [list(each[:5]) for each in frame.cipher_rounds(plaintext, joined(key))]
        refusal, shares, _ = frame.encrypt_frame(plaintext, key, lent, scratch, key)
        yield f"result of {seed}", (refusal, joined(shares)), (0, frame.cipher(plaintext, joined(key)))


# Shares two and three are made of key shares and random bytes alone: after a lookup, share two is s1 and share three is s2. These are the
# random bytes that a share has of a round's twenty lookups; r3 is the third.
def masks_of(lent, number, which):
    return [lent[32 + 3 * (20 * (number - 1) + j) + which] for j in range(20)]


# Such a share of the round keys, word by word as FIPS 197, 5.2, has it. Where it substitutes, the share becomes masks.
def key_share(key, lent, which):
    words = [key[at : at + 4] for at in (0, 4, 8, 12)]
    for i in range(4, 44):
        last = words[i - 1] if i % 4 else masks_of(lent, i // 4, which)[:4]
        words.append([one ^ other for one, other in zip(words[i - 4], last)])
    return [sum(words[at : at + 4], []) for at in range(0, 44, 4)]


# The result's shares, without a lookup: the first is what the ciphertext is without the others.
def shares():
    for seed in range(5, 8):
        plaintext, key, lent, scratch = some_frame(seed)
        rounds = list(frame.frame_rounds(plaintext, key, lent, scratch))
        start = [[p ^ a ^ b for p, a, b in zip(plaintext, lent[:16], lent[16:32])], lent[:16], lent[16:32]]
        yield f"start of {seed}", rounds[0].start, [[a ^ b for a, b in zip(*pair)] for pair in zip(start, key)]
        result = [frame.cipher(plaintext, joined(key))]
        for which in (0, 1):
            keys = key_share(key[1 + which], lent, which)
            yield f"key share {which + 2} of {seed}", [each.key[1 + which] for each in rounds], keys[1:]
            masks = [masks_of(lent, number, which)[4:] for number in range(1, 11)]
            yield f"substituted share {which + 2} of {seed}", [each.substituted[1 + which] for each in rounds], masks
            result.append([masks[9][SHIFTED_FROM[place]] ^ keys[10][place] for place in range(16)])
        wanted = [joined(result), *result[1:]]
        yield f"shares of {seed}", frame.encrypt_frame(plaintext, key, lent, scratch, key)[1], wanted


# Every run of method 2 in a frame: the shares of which byte, which random bytes, and clean scratch, which the plain call takes.
def lookups():
    plaintext, key, lent, scratch = some_frame(9, scratch_length=258)
    with mock.patch.object(model, "run", wraps=model.run) as watched:
        rounds = list(frame.frame_rounds(plaintext, key, lent, scratch))
    yield "number of lookups", len(watched.call_args_list), 200
    keys, clean = [key, *(each.key for each in rounds)], [0] * 256 + scratch[256:]
    for at, call in enumerate(watched.call_args_list):
        number, j = divmod(at, 20)
        block, place = (rounds[number].start, j - 4) if j >= 4 else (keys[number], 12 + (j + 1) % 4)
        case = model.Case(2, 8, 8, *(share[place] for share in block), *lent[32 + 3 * at : 35 + 3 * at], 0)
        yield f"lookup {at}", call.args, (case, frame.SBOX, clean)
        if at % 11 == 0:
            _, answer, _, left = model.plain_call(case, frame.SBOX, clean)
            got = frame.look_up((case.x0, case.r1, case.r2), (case.s1, case.s2, case.r3), clean)
            yield f"answer of lookup {at}", got, ((answer, case.s1, case.s2), left)
            yield f"entry of lookup {at}", answer, frame.SBOX[case.x0 ^ case.r1 ^ case.r2] ^ case.s1 ^ case.s2


# The quick ones come first.
GROUPS = (cipher, refusals, faulty_runs, windows, shares, lookups, scratches, joins)
