# Wrong headers, for the control of header_test.py: edited copies of the header, each with the tests that must notice it.
import itertools
import re
import sys
from pathlib import Path

sys.path.insert(0, str(Path(__file__).resolve().parents[1] / "model"))
from edits import edited, exchanged

DECLARATION, C, CPP = ["declaration"], ["c"], ["c++"]
# Edits of the header, and of what it declares of each call.
EDITS = [
    (C, "#define CIPPAZHEY_SCRATCH_LENGTH 512", "#define CIPPAZHEY_SCRATCH_LENGTH 256"),
    (C, "#define CIPPAZHEY_SCRATCH_LENGTH 512", "#define CIPPAZHEY_SCRATCH_LENGTH 511"),
    (C, "#define CIPPAZHEY_SCRATCH_LENGTH 512", "#define CIPPAZHEY_SCRATCH_LENGTH 513"),
    (C, "#define CIPPAZHEY_SCRATCH_LENGTH 512", "#define CIPPAZHEY_SCRATCH_LENGTH 65536"),
    (C, "#define CIPPAZHEY_FRAME_SCRATCH_LENGTH 256", "#define CIPPAZHEY_FRAME_SCRATCH_LENGTH 255"),
    (C + CPP, "#define CIPPAZHEY_FRAME_SCRATCH_LENGTH 256", "#define CIPPAZHEY_FRAME_SCRATCH_LENGTH 257"),
    (C + CPP, "#define CIPPAZHEY_FRAME_SCRATCH_LENGTH 256", "#define CIPPAZHEY_FRAME_SCRATCH_LENGTH 512"),
    (DECLARATION + C, "CIPPAZHEY_REFUSED_OWN_MASK = 12", "CIPPAZHEY_REFUSED_OWN_MASK = 14"),
    (C, "CIPPAZHEY_REFUSED_OWN_MASK", "CIPPAZHEY_REFUSED_BIT"),
    (C, "#define CIPPAZHEY_RANDOM_LENGTH 632", "#define CIPPAZHEY_RANDOM_LENGTH 631"),
    (C + CPP, "#define CIPPAZHEY_RANDOM_LENGTH 632", "#define CIPPAZHEY_RANDOM_LENGTH 633"),
    (C + CPP, "#define CIPPAZHEY_NO_FAULT UINT64_MAX", "#define CIPPAZHEY_NO_FAULT UINT32_MAX"),
    (C + CPP, "#define CIPPAZHEY_NO_FAULT UINT64_MAX", "#define CIPPAZHEY_NO_FAULT 0"),
    (C + CPP, "#define CIPPAZHEY_NO_FAULT UINT64_MAX", "#define CIPPAZHEY_NO_FAULT INT64_MAX"),
    (C, "#define CIPPAZHEY_NO_FAULT UINT64_MAX", ""),
    (C, "CIPPAZHEY_ACCEPTED = 0", "CIPPAZHEY_ACCEPTED = 1"),
    (C + CPP, "CIPPAZHEY_REFUSED_RANDOM_LENGTH = 26", "CIPPAZHEY_REFUSED_RANDOM_LENGTH = 27"),
    (C + CPP, "CIPPAZHEY_REFUSED_RANDOM_LENGTH = 26", "CIPPAZHEY_REFUSED_RANDOM_LENGTH"),
    (DECLARATION + C + CPP, "CIPPAZHEY_REFUSED_FAULTY_RANDOM = 27", "CIPPAZHEY_REFUSED_FAULTY_RANDOM = 26"),
    (DECLARATION + C + CPP, "CIPPAZHEY_REFUSED_FAULTY_RANDOM = 27", "CIPPAZHEY_REFUSED_FAULTY_RANDOM = 28"),
    (DECLARATION + C + CPP, "    CIPPAZHEY_REFUSED_FAULTY_RANDOM = 27,", ""),
    (C + CPP, "CIPPAZHEY_REFUSED_DIRTY_SCRATCH = 19", "CIPPAZHEY_REFUSED_DIRTY_SCRATCH = 13"),
    (C + CPP, "CIPPAZHEY_REFUSED_DIRTY_SCRATCH = 19", "CIPPAZHEY_REFUSED_DIRTY_SCRATCH = 14"),
    (C + CPP, "CIPPAZHEY_REFUSED_DIRTY_SCRATCH = 19", "CIPPAZHEY_REFUSED_DIRTY_SCRATCH"),
    (C + CPP, "CIPPAZHEY_REFUSED_SELECT_WIDTH = 20", "CIPPAZHEY_REFUSED_SELECT_WIDTH = 21"),
    (C + CPP, "CIPPAZHEY_REFUSED_SELECT_WIDTH = 20", "CIPPAZHEY_REFUSED_SELECT_WIDTH"),
    (DECLARATION + C + CPP, "CIPPAZHEY_REFUSED_SELECT_INPUT = 21", "CIPPAZHEY_REFUSED_SELECT_INPUT = 20"),
    (DECLARATION + C + CPP, "CIPPAZHEY_REFUSED_SELECT_INPUT = 21", "CIPPAZHEY_REFUSED_SELECT_INPUT = 22"),
    (DECLARATION + C + CPP, "    CIPPAZHEY_REFUSED_SELECT_INPUT = 21,", ""),
    (DECLARATION + C + CPP, "void cippazhey_clear(uint8_t *buffer, size_t length);\n", ""),
    (DECLARATION, "void cippazhey_clear(", "void cippazhey_other(void);\nvoid cippazhey_clear("),
    (C + CPP, "return result / 256u", "return result / 128u"),
    (C + CPP, "return (uint8_t)(result % 256u)", "return (uint8_t)(result % 128u)"),
    (C, "static inline unsigned", "inline unsigned"),
    (C, "#define CIPPAZHEY_H\n", ""),
    (C, "#include <stdint.h>", ""),
    (C, "#include <stddef.h>", ""),
    (CPP, 'extern "C" {', 'extern "C++" {'),
]
EDITS_OF_CALLS = {
    "cippazhey_plain_call": [
        (DECLARATION + C + CPP, "uint16_t cippazhey_plain_call", "uint32_t cippazhey_plain_call"),
        (DECLARATION + C + CPP, "size_t scratch_length", "uint32_t scratch_length"),
        (DECLARATION + C + CPP, "size_t table_length", "uint32_t table_length"),
        (DECLARATION + C + CPP, "const uint8_t *table", "uint8_t *table"),
        (DECLARATION + C, "uint8_t *scratch", "const uint8_t *scratch"),
        (DECLARATION + C, "uint32_t b,", "uint8_t b,"),
        (DECLARATION + C, "uint32_t b,", "uint32_t bit,"),
        (DECLARATION + C, "uint32_t b,", ""),
        (DECLARATION + C, "cippazhey_plain_call(", "cippazhey_call("),
    ],
    "cippazhey_encrypt_frame": [
        (DECLARATION + C + CPP, "uint32_t cippazhey_encrypt_frame", "uint16_t cippazhey_encrypt_frame"),
        (DECLARATION + C + CPP, "uint32_t cippazhey_encrypt_frame", "void cippazhey_encrypt_frame"),
        (DECLARATION + C + CPP, "size_t random_length", "uint32_t random_length"),
        (DECLARATION + C + CPP, "size_t scratch_length", "uint32_t scratch_length"),
        (DECLARATION + C + CPP, "const uint8_t *random", "uint8_t *random"),
        (DECLARATION + C, "uint8_t *scratch", "const uint8_t *scratch"),
        (DECLARATION + C, "const uint8_t plaintext[16]", "uint8_t plaintext[16]"),
        (DECLARATION + C, "const uint8_t key2[16]", "uint8_t key2[16]"),
        (DECLARATION + C, "const uint8_t key3[16]", "const uint32_t key3[16]"),
        (DECLARATION, "const uint8_t key1[16]", "const uint8_t key1[15]"),
        (DECLARATION, "uint8_t share3[16]", "uint8_t share3[32]"),
        (DECLARATION + C, "uint8_t share1[16]", "const uint8_t share1[16]"),
        (DECLARATION + C, "const uint8_t key3[16],", ""),
        (DECLARATION + C, ", uint8_t share3[16]", ""),
        (DECLARATION + C, "const uint8_t key1[16]", "const uint8_t key[16]"),
        (DECLARATION + C + CPP, "cippazhey_encrypt_frame(", "cippazhey_frame("),
    ],
    "cippazhey_select": [
        (DECLARATION + C + CPP, "uint32_t cippazhey_select", "uint16_t cippazhey_select"),
        (DECLARATION + C + CPP, "uint32_t cippazhey_select", "void cippazhey_select"),
        (DECLARATION + C, "uint32_t width", "uint8_t width"),
        (DECLARATION + C, "uint32_t z0", "uint16_t z0"),
        (DECLARATION + C, "uint32_t b,", "uint8_t b,"),
        (DECLARATION + C, "uint32_t b,", "uint32_t bit,"),
        (DECLARATION + C, "uint32_t b,", ""),
        (DECLARATION + C, "uint8_t *share0", "const uint8_t *share0"),
        (DECLARATION + C, "uint8_t *share1", "uint32_t *share1"),
        (DECLARATION + C, "uint8_t *share2", "uint8_t **share2"),
        (DECLARATION + C, ", uint8_t *share2", ""),
        (DECLARATION + C, "uint8_t *share2", "uint8_t *share2, size_t share2_length"),
        (DECLARATION + C + CPP, "cippazhey_select(", "cippazhey_selection("),
    ],
    "cippazhey_screen": [
        (DECLARATION + C + CPP, "uint64_t cippazhey_screen", "uint32_t cippazhey_screen"),
        (DECLARATION + C + CPP, "uint64_t cippazhey_screen", "int64_t cippazhey_screen"),
        (DECLARATION + C + CPP, "uint64_t cippazhey_screen", "void cippazhey_screen"),
        (DECLARATION + C + CPP, "const uint8_t *run", "uint8_t *run"),
        (DECLARATION + C + CPP, "const uint8_t *run", "const void *run"),
        (DECLARATION + C + CPP, "const uint8_t *run", "const uint8_t *bytes"),
        (DECLARATION + C + CPP, "size_t length", "uint32_t length"),
        (DECLARATION + C + CPP, "size_t length", "size_t run_length"),
        (DECLARATION + C + CPP, "const uint8_t *run, size_t length", "size_t length, const uint8_t *run"),
        (DECLARATION + C + CPP, "const uint8_t *run, size_t length", "const uint8_t *run"),
        (DECLARATION + C + CPP, "cippazhey_screen(", "cippazhey_screening("),
    ],
    "cippazhey_clear": [
        (DECLARATION + C + CPP, "void cippazhey_clear", "int cippazhey_clear"),
        (DECLARATION + C + CPP, "void cippazhey_clear", "void *cippazhey_clear"),
        (DECLARATION + C + CPP, "uint8_t *buffer", "const uint8_t *buffer"),
        (DECLARATION + C + CPP, "uint8_t *buffer", "void *buffer"),
        (DECLARATION + C + CPP, "size_t length", "uint32_t length"),
        (DECLARATION + C + CPP, "uint8_t *buffer, size_t length", "size_t length, uint8_t *buffer"),
        (DECLARATION + C + CPP, "uint8_t *buffer, size_t length", "uint8_t *buffer"),
        (DECLARATION + C + CPP, "uint8_t *buffer", "uint8_t *bytes"),
        (DECLARATION + C + CPP, "size_t length", "size_t buffer_length"),
        (DECLARATION + C + CPP, "cippazhey_clear(", "cippazhey_clear_all("),
    ],
}


# The names that a C user reads: every two of the enum's.
def exchanges(header):
    constants = re.findall(r"CIPPAZHEY_REFUSED_\w+", header)
    for pair in zip(constants, constants[1:]):
        yield C, *pair
    lines = re.findall(r"CIPPAZHEY_REFUSED_\w+ = \d+", header)
    for pair in zip(lines, lines[1:]):
        yield DECLARATION, *pair


# Every two of the plain call's numbers, of which the result tells only some apart.
def exchanges_of_plain_call(declaration):
    numbers = re.findall(r"uint32_t \w+,", declaration)
    for pair in itertools.combinations(numbers, 2):
        yield DECLARATION, *pair
    for pair in (("n", "m"), ("r3", "b"), ("method", "n"), ("m", "x0"), ("r2", "s1"), ("s2", "r3")):
        yield C, *(f"uint32_t {name}," for name in pair)
    yield DECLARATION + C, "table_length", "scratch_length"


# Every two of the frame's blocks that are read, and of those that are written.
def exchanges_of_frame(declaration):
    blocks = re.findall(r"\b(?:plaintext|key\d|share\d)\b", declaration)
    for pair in itertools.combinations(blocks, 2):
        if ("share" in pair[0]) == ("share" in pair[1]):
            yield DECLARATION + C, *pair
    yield DECLARATION + C, "random_length", "scratch_length"


# Every two of the selection's numbers, of which the results tell all but the bit's shares apart, and of its results.
def exchanges_of_select(declaration):
    numbers = re.findall(r"uint32_t \w+,", declaration)
    for pair in itertools.combinations(numbers, 2):
        yield DECLARATION, *pair
    for pair in (("width", "z0"), ("z0", "z1"), ("z1", "z2"), ("z2", "c0"), ("c2", "t1"), ("t1", "t2"), ("t2", "b"), ("c1", "b")):
        yield C, *(f"uint32_t {name}," for name in pair)
    for pair in itertools.combinations(("share0", "share1", "share2"), 2):
        yield DECLARATION + C, *pair


EXCHANGES_OF_CALLS = {
    "cippazhey_plain_call": exchanges_of_plain_call,
    "cippazhey_encrypt_frame": exchanges_of_frame,
    "cippazhey_select": exchanges_of_select,
}


# The header's own text of a declaration.
def declaration_in(header, name):
    return re.search(rf"^\w[\w *]*?\b{name}\([^)]*\);", header, re.MULTILINE)[0]


# Wrong headers: which tests must notice each, what is wrong, and its text.
def wrong_headers(header):
    for noticing, old, new in EDITS:
        yield noticing, f"{old!r} became {new!r}", edited(header, old, new)
    for noticing, one, other in exchanges(header):
        yield noticing, f"{one!r} and {other!r} exchanged", exchanged(header, one, other)
    for name, edits in EDITS_OF_CALLS.items():
        right = declaration_in(header, name)
        for noticing, old, new in edits:
            yield noticing, f"{old!r} of {name} became {new!r}", edited(header, right, edited(right, old, new))
    for name, exchanges_of in EXCHANGES_OF_CALLS.items():
        right = declaration_in(header, name)
        for noticing, one, other in exchanges_of(right):
            yield noticing, f"{one!r} and {other!r} of {name} exchanged", edited(header, right, exchanged(right, one, other))
