# Frames with the shares that the model finds, for tests/host/frame_test.c. Run: python3 tests/model/frame_cases.py prints them as C, by
# tests/host/frame_cases.h.
import random

import fips_197
import frame
from runs import in_turn

ZEROS, ONES, COUNTED = [0] * 16, [255] * 16, list(range(16))


# A plaintext, three key shares and the random bytes of each frame. In some frames one random byte has another lowest bit, which shows where
# it goes. In the last one no two lookups have the same r3.
def frames():
    counted = in_turn(251, 632)
    for plaintext, key in ((fips_197.PLAINTEXT_B, fips_197.KEY_B), (fips_197.PLAINTEXT_C, fips_197.KEY_C)):
        yield plaintext, [key, ZEROS, ZEROS], counted
        yield plaintext, [key, ONES, ONES], in_turn(26, 632)
    yield ZEROS, [ZEROS, ZEROS, ZEROS], counted
    yield ONES, [ONES, ONES, ONES], [255 - byte for byte in counted]
    yield ZEROS, [ZEROS, COUNTED, ZEROS], counted
    yield ZEROS, [ZEROS, ZEROS, COUNTED], counted
    for place in (0, 16, 31, 32, 33, 34, 43, 44, 91, 92, 572, 584, 629, 630, 631):
        yield COUNTED, [COUNTED, ZEROS, ZEROS], counted[:place] + [counted[place] ^ 1] + counted[place + 1 :]
    source = random.Random(2)
    for _ in range(8):
        yield source.randbytes(16), [source.randbytes(16) for _ in range(3)], source.randbytes(632)
    lent = bytearray(source.randbytes(632))
    lent[34::3] = source.sample(range(256), 200)
    yield source.randbytes(16), [source.randbytes(16) for _ in range(3)], lent


# r' = r1 ^ r3 ^ r2 of each lookup: of the last key's rotated word, then of the state.
def r_primes(plaintext, key, lent):
    r3s = iter(lent[34::3])
    for each in frame.frame_rounds(plaintext, key, lent, [0] * 256):
        word = [frame.rotated_word(share) for share in key]
        yield from (r1 ^ r2 ^ next(r3s) for shared in (word, each.start) for r1, r2 in zip(*shared[1:]))
        key = each.key


def array(numbers):
    return "{" + ", ".join(map(str, numbers)) + "}"


def arrays(shared):
    return "{" + ", ".join(map(array, shared)) + "}"


# The text of a C file with the frames and the shares of each, and r' of the last one's lookups.
def in_c():
    lines = ['#include "frame_cases.h"', "const struct frame_case frame_cases[] = {"]
    for plaintext, key, lent in frames():
        refusal, shares, _ = frame.encrypt_frame(plaintext, key, lent, [0] * 256, key)
        assert refusal == 0
        lines.append(f"    {{{array(plaintext)}, {arrays(key)}, {array(lent)}, {arrays(shares)}}},")
    lines += ["};", "const size_t frame_case_count = sizeof frame_cases / sizeof *frame_cases;"]
    lines += [f"const uint8_t last_r_primes[200] = {array(r_primes(plaintext, key, lent))};", ""]
    return "\n".join(lines)


if __name__ == "__main__":
    print(in_c(), end="")
